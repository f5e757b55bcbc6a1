# For find_package(bellpulsar), which gives two targets: bellpulsar::bellpulsar, the shared library, and bellpulsar::static.
# Paths are told from where this file stands, so that the installation may be moved.
get_filename_component(bellpulsar_here "${CMAKE_CURRENT_LIST_FILE}" REALPATH)
get_filename_component(bellpulsar_here "${bellpulsar_here}" DIRECTORY)
get_filename_component(bellpulsar_lib "${bellpulsar_here}/@LIBDIR@" ABSOLUTE)
get_filename_component(bellpulsar_include "${bellpulsar_here}/@INCLUDEDIR@" ABSOLUTE)

if(NOT TARGET bellpulsar::bellpulsar)
    add_library(bellpulsar::bellpulsar SHARED IMPORTED)
    set_target_properties(bellpulsar::bellpulsar PROPERTIES
        IMPORTED_LOCATION "${bellpulsar_lib}/@SHARED@"
        IMPORTED_SONAME "@SHARED@"
        INTERFACE_INCLUDE_DIRECTORIES "${bellpulsar_include}")
    add_library(bellpulsar::static STATIC IMPORTED)
    set_target_properties(bellpulsar::static PROPERTIES
        IMPORTED_LOCATION "${bellpulsar_lib}/libbellpulsar.a"
        IMPORTED_LINK_INTERFACE_LANGUAGES C
        INTERFACE_INCLUDE_DIRECTORIES "${bellpulsar_include}")
endif()

unset(bellpulsar_here)
unset(bellpulsar_lib)
unset(bellpulsar_include)
