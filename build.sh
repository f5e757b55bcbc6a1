#!/bin/sh
# Proves the engine and builds its C library: build/libbellpulsar.a, the shared build/libbellpulsar.so.VERSION, and
# build/link/libbellpulsar.so, a copy of it for -lbellpulsar. The copy has a folder of its own, since a program from before
# there were versions looks for that name in build, and must not find it; it is no link, since the gate refuses links in the
# tree. Nothing is done where they are made from what the tree has now: that goes by content, whose hash is in build/stamp. What
# `rt version` said as they were made is in build/toolchain, for a release to tell.
#
#     ./build.sh            builds what is missing or old; status 0, or 2 where that fails
#     ./build.sh --check    builds nothing; status 0 where all are current, 1 where they are not
#
# CC and AR (which may be several words), CFLAGS and LDFLAGS are used where the libraries are made of the prover's; they are no
# part of the hash.
set -euf

# A stream that is closed would become the next pipe or file that is opened.
(: >&2) || exec 2>/dev/null
(: >&1) 2>/dev/null || exec >/dev/null
(: <&0) 2>/dev/null || exec </dev/null

cd "$(dirname "$0")"
case $# in
0) ;;
*) [ "$*" = --check ] || { echo "usage: build.sh [--check]" >&2; exit 2; } ;;
esac

# Standard error may be full.
say() { echo "bellpulsar: $*" >&2 || :; }

# The version of the interface is the header's.
version=$(sed -n 's/^#define BP_VERSION \([0-9][0-9]*\)$/\1/p' include/bellpulsar.h)
[ -n "$version" ] || { say "include/bellpulsar.h has no BP_VERSION"; exit 2; }
shared=libbellpulsar.so.$version

# Each crate of the C calls, whose names begin with capi_, with all that it is built on: the crates that the library is made
# from.
order=$(awk '
    function visit(name, parts, n, i) {
        if (name in seen || !(name in needs)) return
        seen[name] = 1
        line = line (line == "" ? "" : " ") name
        n = split(needs[name], parts, " ")
        for (i = 1; i <= n; i++) visit(parts[i])
    }
    {
        sub(/#.*/, "")
        split($0, sides, ":")
        split(sides[1], words, " ")
        needs[words[1]] = sides[2]
        if (words[1] ~ /^capi_/) calls[++count] = words[1]
    }
    END {
        for (k = 1; k <= count; k++) {
            split("", seen)
            line = ""
            visit(calls[k])
            print line
        }
    }' crates.txt)
calls=$(echo "$order" | sed 's/ .*//')
crates=$(echo "$order" | tr ' ' '\n' | LC_ALL=C sort -u)
sources=$(for crate in $crates; do
    for part in src specs proofs; do
        [ ! -d "crates/$crate/$part" ] || echo "crates/$crate/$part"
    done
done)

# The hash of all that the library is made from; of the header that is the version.
content() {
    {
        echo "$version"
        find build.sh crates.txt $sources -type f -print0 | LC_ALL=C sort -z | xargs -0 sha256sum
    } | sha256sum
}

is_current() {
    for made in libbellpulsar.a "$shared" link/libbellpulsar.so toolchain stamp; do
        [ -e "build/$made" ] || return 1
    done
    [ "$(cat build/stamp)" = "$(content)" ]
}

if is_current; then exit 0; fi
if [ $# -eq 1 ]; then exit 1; fi
trap '[ $? -eq 0 ] || exit 2' EXIT

# Whatever needs the engine comes here, so this is said once for all of them.
command -v rt >/dev/null 2>&1 || {
    say "the command rt of the Rattle toolchain, which proves and builds the engine, is not on PATH: install a release of" \
        "Bellpulsar, which needs no toolchain (README.md says how), or put rt on PATH"
    exit 2
}

# One build at a time. The prover's processes hold the lock too: it is free when the last of them has ended.
mkdir -p build
exec 9>build/lock
if ! flock -n 9; then
    say "waiting for another build to end"
    flock 9
    if is_current; then exit 0; fi
fi
new=build/new
rm -rf "$new"
mkdir "$new"
now=$(content)
total=$(echo "$crates" | wc -l)
say "proving and building the engine, $total crates (this takes minutes where little of it is proved yet)"

# One crate of C calls after the other: all that it is built on is proved, so many crates at a time as there are processors, four
# at most, and then its library is made. The prover's processes are a group of their own, in which a watcher reads from a pipe
# that only this script can write to. So where this script ends, whatever ends it, the watcher reads the pipe's end and kills the
# group, and what the prover has started outside it ends with the prover.
group='
    { read -r nothing <&8; kill -s KILL -- "-$$"; } >/dev/null 2>&1 9>&- &
    exec 8<&-
    jobs=$1
    shift
    for crate; do
        echo "== crates of $crate"
        (cd "crates/$crate" && rt all check --jobs "$jobs" && echo "== library $crate" && rt lib) || exit
    done'
jobs=$(nproc)
[ "$jobs" -le 4 ] || jobs=4
mkfifo "$new/alive" "$new/said"
exec 7<>"$new/alive" 8<"$new/alive"
exec 6>build/log
setsid --wait sh -c "$group" sh "$jobs" $calls >"$new/said" 2>&1 6>&- 7>&- &
prover=$!

# The prover writes a crate's name behind two signs, then what it said of it: nothing where it was proved before. The headings of
# two words are those above.
proved=" " count=0 name= state=
while IFS= read -r line; do
    printf '%s\n' "$line" >&6 || :
    case $line in
    "== "*)
        case $state in
        kept | proved)
            case $proved in
            *" $name "*) ;;
            *)
                proved="$proved$name " count=$((count + 1))
                say "$name proved ($count of $total)"
                ;;
            esac
            ;;
        esac
        name=${line#== } state=kept
        case $name in *" "* | summary) state= ;; esac
        ;;
    logic=proved*) [ -z "$state" ] || state=proved ;;
    "rt: "*) ;;
    *) [ "$state" != kept ] || state=open ;;
    esac
done <"$new/said"
ended=0
wait "$prover" || ended=$?
if [ "$ended" -ne 0 ]; then
    # What was said of what is not proved, without the prover's counts.
    awk '
        function end() {
            if (is_open) printf "%s", text
            is_open = 0
        }
        /^(statements|logic|library|crate|axioms|only=|rt: chose)/ && !/^logic=/ || /: ok$|crates ok$/ { next }
        /^logic=proved/ { is_open = 0; text = ""; is_done = 1; next }
        /^== / { end(); text = $0 "\n"; is_done = 0; next }
        !is_done { text = text $0 "\n"; is_open = 1 }
        END { end() }' build/log >&2 || :
    say "the engine is not proved; build/log has all that was said"
    exit 2
fi

# The archive of a crate has one object, in which its own calls alone are seen from outside.
for crate in $calls; do
    archive=crates/$crate/out/lib$crate.a
    [ "$(${AR:-ar} t "$archive")" = "$crate.o" ] && (cd "$new" && ${AR:-ar} x "../../$archive") || {
        say "$archive is not made of $crate.o alone"
        exit 2
    }
    set -- "$@" "$new/$crate.o"
done
${AR:-ar} rcsD "$new/libbellpulsar.a" "$@" && ${CC:-cc} ${CFLAGS-} ${LDFLAGS-} -shared "-Wl,-soname,$shared" \
    -o "$new/$shared" -Wl,--whole-archive "$new/libbellpulsar.a" -Wl,--no-whole-archive || {
    say "the engine is proved, and its libraries could not be made of it"
    exit 2
}
mkdir "$new/link"
cp "$new/$shared" "$new/link/libbellpulsar.so"
rt version >"$new/toolchain"
echo "$now" >"$new/stamp"
rm -rf build/stamp build/link build/libbellpulsar.so
mv "$new/libbellpulsar.a" "$new/$shared" "$new/link" "$new/toolchain" build
mv "$new/stamp" build
rm -rf "$new"
