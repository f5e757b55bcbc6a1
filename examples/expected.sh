#!/bin/sh
# Runs the examples of one language and fails where one prints, or ends with, something else than it should. Most of
# what is expected are known points, which are a theorem too (docs/PROOFS.md). An example ends with 0 where it is done, 1
# where it is refused and 2 where it is misused.
#
#     sh examples/expected.sh PREFIX
#
# PREFIX and the example's name make the command: "build/" runs build/point, "build/cargo/release/example " runs that
# program with point as its first argument.
set -eu
prefix=$1

# expect STATUS TEXT NAME ARGUMENTS..
expect() {
    status=$1
    want=$2
    name=$3
    shift 3
    ended=0
    got=$($prefix$name "$@" 2>/dev/null) || ended=$?
    if [ "$got" != "$want" ] || [ "$ended" -ne "$status" ]; then
        printf '%s%s %s ended with %s and printed:\n%s\ninstead of %s and:\n%s\n' \
            "$prefix" "$name" "$*" "$ended" "$got" "$status" "$want"
        exit 1
    fi
}

expect 0 "symbol 0 carrier -425
holds slot 0 subchannel 0 index 0" point 2 1024 17 0 0 0
expect 0 "symbol 1 carrier 40
holds slot 1 subchannel 3 index 5" point 2 1024 0 1 3 5
expect 0 "symbol 0 carrier 838
holds slot 0 subchannel 1 index 11" point 0 2048 0 0 1 11
expect 0 "symbol 4 carrier -6
holds slot 1 subchannel 5 index 1" point 4 256 176 1 5 1
expect 1 "refused 1: Is the mode listed (in a plan and of bursts: 0 or 2 to 7)?" point 8 1024 256 0 0 0
expect 1 "refused 2: Is the size that mode's (of a plan: 256, 512, 1024 or 2048)?" point 2 128 256 0 0 0
expect 1 "refused 3: Is the cell in range?" point 2 1024 256 0 0 0
expect 1 "refused 4: Is the slot below 512, the zone's symbol below 512 times the slot length?" point 3 256 2351 512 0 0
expect 1 "refused 5: Is the subchannel in range (of a lay: and lit)?" point 1 2048 69 511 70 48
expect 1 "refused 6: Is the index below 48?" point 2 1024 17 0 0 48
# A number that 32 bits do not hold is refused, not cut to one that they hold.
expect 1 "refused 1: Is the mode listed (in a plan and of bursts: 0 or 2 to 7)?" point 4294967298 1024 17 0 0 0
expect 1 "refused 3: Is the cell in range?" point 2 1024 -1 0 0 0
expect 1 "refused 6: Is the index below 48?" point 2 1024 17 0 0 340282366920938463463374607431768211456
for word in first "" " 3" "3 " "	3" " -18446744073709551615" "- 3" - --3 +3 1_0 0x1 1.0 1e3 "٣"; do
    expect 2 "" point 2 1024 17 0 0 "$word"
done
expect 2 "" point 2 1024 17 0 0

expect 0 "data slot 0 subchannel 0 index 0" carrier 2 1024 17 0 -425
expect 0 "data slot 1 subchannel 3 index 5" carrier 2 1024 0 1 40
expect 0 "pilot" carrier 0 2048 5 1 -840
expect 0 "guard" carrier 0 2048 5 1 -841
expect 0 "DC" carrier 0 2048 5 1 0
expect 0 "DC" carrier 0 2048 5 1 -0
expect 0 "guard" carrier 3 256 0 0 -128
expect 0 "guard" carrier 3 256 0 0 127
# A carrier that 32 bits do not hold is refused, not cut to one that they hold.
for word in -129 128 -2147483648 2147483647 4294967295 -4294967296 18446744073709551615 -18446744073709551616; do
    expect 1 "refused 7: Is the carrier from -size/2 to size/2 - 1?" carrier 3 256 0 0 "$word"
done
expect 1 "refused 4: Is the slot below 512, the zone's symbol below 512 times the slot length?" carrier 3 256 0 -1 -129
for word in "" - --1 "- 1" +1 -1.0 -x; do
    expect 2 "" carrier 3 256 0 0 "$word"
done
expect 2 "" carrier 3 256 0 0
expect 2 "" carrier 3 256 0 0 -1 -1

# table SYMBOLS MODE SIZE CELL SLOT SUBCHANNEL: what places should print, by point; a slot has so many symbols.
table() {
    symbols=$1
    shift
    for index in $(seq 0 47); do
        where=$(${prefix}point "$@" "$index" | head -n 1)
        symbol=${where#symbol } carrier=${where#* carrier }
        symbol=${symbol% carrier *}
        echo "index $index $where place $((symbol % symbols * $2 + $2 / 2 + carrier))"
    done
}
expect 0 "$(table 1 2 1024 17 0 0)" places 2 1024 17 0 0
expect 0 "$(table 2 0 2048 5 511 59)" places 0 2048 5 511 59
expect 0 "$(table 3 1 2048 69 7 69)" places 1 2048 69 7 69
expect 0 "$(table 6 6 256 176 1 23)" places 6 256 176 1 23
expect 1 "refused 1: Is the mode listed (in a plan and of bursts: 0 or 2 to 7)?" places 8 128 256 512 16
expect 1 "refused 2: Is the size that mode's (of a plan: 256, 512, 1024 or 2048)?" places 2 128 256 512 16
expect 1 "refused 3: Is the cell in range?" places 2 1024 256 512 16
expect 1 "refused 4: Is the slot below 512, the zone's symbol below 512 times the slot length?" places 2 1024 255 512 16
expect 1 "refused 5: Is the subchannel in range (of a lay: and lit)?" places 2 1024 255 511 16
expect 2 "" places 2 1024 17 0
expect 2 "" places 2 1024 17 0 0 0
expect 2 "" places 2 1024 17 0 x

expect 0 "groups 0 1 31 32
count 4" collisions 2048 0 2 1010 0
expect 1 "refused 3: Is the cell in range?" collisions 256 0 4 16 0
expect 1 "refused 5: Is the subchannel in range (of a lay: and lit)?" collisions 256 0 4 15 0
expect 0 "indices 8 24 32
count 3" collisions 48 176
expect 1 "refused 3: Is the cell in range?" collisions 48 2352
expect 2 "" collisions 48

expect 0 "70 of 70 subchannels lit
symbol 0 carrier -815: point (1, -1) of slot 0 subchannel 0 index 0
symbol 1 carrier 762: point (3313, -3313) of slot 0 subchannel 69 index 0
subchannel 69 again: 96 of 12288 floats changed
symbol 1 carrier 762: point (-3313, 3313) of slot 0 subchannel 69 index 0
3360 points: all back" slot 1 2048 0 0 0
expect 0 "8 of 8 subchannels lit
symbol 9 carrier -177: point (1, -1) of slot 9 subchannel 0 index 0
symbol 9 carrier 202: point (337, -337) of slot 9 subchannel 7 index 0
subchannel 7 again: 96 of 1024 floats changed
symbol 9 carrier 202: point (-337, 337) of slot 9 subchannel 7 index 0
384 points: all back" slot 3 512 7 0 9
expect 0 "24 of 24 subchannels lit
symbol 29 carrier -214: point (1, -1) of slot 9 subchannel 0 index 0
symbol 29 carrier 201: point (1105, -1105) of slot 9 subchannel 23 index 0
subchannel 23 again: 96 of 3072 floats changed
symbol 29 carrier 201: point (-1105, 1105) of slot 9 subchannel 23 index 0
1152 points: all back" slot 4 512 7 0 9
# The three sectors of a site, each with two of the six major groups.
expect 0 "20 of 60 subchannels lit
symbol 6 carrier -71: point (1, -1) of slot 3 subchannel 0 index 0
symbol 6 carrier 254: nothing, subchannel 59 is unlit
subchannel 19 again: 96 of 8192 floats changed
symbol 6 carrier -41: point (-913, 913) of slot 3 subchannel 19 index 0
960 points: all back" slot 0 2048 5 3 3
expect 0 "20 of 60 subchannels lit
symbol 6 carrier -71: nothing, subchannel 0 is unlit
symbol 6 carrier 254: nothing, subchannel 59 is unlit
subchannel 39 again: 96 of 8192 floats changed
symbol 6 carrier -405: point (-913, 913) of slot 3 subchannel 39 index 0
960 points: all back" slot 0 2048 5 12 3
expect 0 "20 of 60 subchannels lit
symbol 6 carrier -71: nothing, subchannel 0 is unlit
symbol 6 carrier 254: point (913, -913) of slot 3 subchannel 59 index 0
subchannel 59 again: 96 of 8192 floats changed
symbol 6 carrier 254: point (-913, 913) of slot 3 subchannel 59 index 0
960 points: all back" slot 0 2048 5 48 3
expect 1 "refused 2: Is the size that mode's (of a plan: 256, 512, 1024 or 2048)?" slot 2 4294967295 0 0 0
mask="refused 17: Is the mask 1 to 63 in mode 0, 0 in the others?"
for word in 0 64 -1 4294967295 4294967297 18446744073709551617; do
    expect 1 "$mask" slot 0 2048 31 "$word" 512
done
expect 1 "$mask" slot 2 1024 0 63 0
expect 1 "refused 3: Is the cell in range?" slot 0 2048 32 64 512
expect 1 "refused 4: Is the slot below 512, the zone's symbol below 512 times the slot length?" slot 0 2048 31 63 512
for word in "" x 0x3F 3F +7; do
    expect 2 "" slot 0 2048 5 "$word" 3
done
expect 2 "" slot 0 2048 5 3

# FUSC with the evenly spread lists, from the first to the last, and with all pilots above the data.
for fields in "0 0 31 46 26 -217" "31 511 0 0 0 -848" "31 511 31 47 51 -209"; do
    set -- $fields
    expect 0 "symbol $2 carrier $6
holds slot $2 subchannel $3 index $4
166 pilots, 1536 points, 346 carriers with nothing
1536 points: all back" fusc "$1" "$2" "$3" "$4" "$5" 10
done
expect 0 "symbol 3 carrier -343
holds slot 3 subchannel 7 index 20
166 pilots, 1536 points, 346 carriers with nothing
1536 points: all back" fusc 5 3 7 20 1536 1
expect 1 "refused 3: Is the cell in range?" fusc 32 512 32 48 52 10
expect 1 "refused 4: Is the slot below 512, the zone's symbol below 512 times the slot length?" fusc 31 512 32 48 52 10
expect 1 "refused 5: Is the subchannel in range (of a lay: and lit)?" fusc 31 511 32 48 52 10
expect 1 "refused 6: Is the index below 48?" fusc 31 511 31 48 52 10
pilots="refused 20: Are the pilots 166 rising used numbers below 1702 in mode 7, none in the others?"
for spread in "52 10" "1537 1" "0 11" "0 0" "0 -1" "-1 1" "4294967296 1" "0 4294967295" "26 4294967306"; do
    expect 1 "$pilots" fusc 31 511 31 47 $spread
done
# The examples for the modes that have pilots of their own give no list.
expect 1 "$pilots" point 7 2048 31 511 31 47
expect 1 "$pilots" carrier 7 2048 31 511 0
expect 1 "$pilots" places 7 2048 31 511 31
expect 1 "$pilots" slot 7 2048 31 0 511
expect 1 "$pilots" capture 7 2048 31 0 511
expect 2 "" fusc 0 0 31 46 26
expect 2 "" fusc 0 0 31 46 26 10 0
expect 2 "" fusc 0 0 31 46 26 x

expect 0 "128 of 256 carriers: 96 of 192 points
256 of 256 carriers: 192 of 192 points
points as emptied at once" capture 2 256 15 0 9
# The middle one of PUSC uplink's three symbols has no pilots, and so twice as many points as each of the others.
expect 0 "1024 of 6144 carriers: 420 of 3360 points
2048 of 6144 carriers: 840 of 3360 points
3072 of 6144 carriers: 1680 of 3360 points
4096 of 6144 carriers: 2520 of 3360 points
5120 of 6144 carriers: 2940 of 3360 points
6144 of 6144 carriers: 3360 of 3360 points
points as emptied at once" capture 1 2048 69 0 511
expect 0 "1024 of 4096 carriers: 240 of 960 points
2048 of 4096 carriers: 480 of 960 points
3072 of 4096 carriers: 720 of 960 points
4096 of 4096 carriers: 960 of 960 points
points as emptied at once" capture 0 2048 5 3 3
expect 1 "refused 1: Is the mode listed (in a plan and of bursts: 0 or 2 to 7)?" capture 8 2048 5 3 3
expect 1 "refused 2: Is the size that mode's (of a plan: 256, 512, 1024 or 2048)?" capture 2 0 0 0 0
expect 1 "refused 3: Is the cell in range?" capture 0 2048 32 64 512
expect 1 "$mask" capture 0 2048 31 64 512
expect 1 "refused 4: Is the slot below 512, the zone's symbol below 512 times the slot length?" capture 0 2048 31 63 512
expect 2 "" capture 0 2048 5 3
expect 2 "" capture 0 2048 5 3 3 3
expect 2 "" capture 0 2048 5 3 x

expect 0 "size 2048
mode 0 cell 0 slots 12 mask 63
bytes 01 80 10 00 00 0C 3F" plan 01 80 10 00 00 0C 3F
expect 0 "size 2048
mode 0 cell 5 slots 12 mask 63
bytes 01 80 10 00 05 0C 3F" plan 01 80 10 00 05 0C 3F
expect 0 "size 1024
mode 2 cell 17 slots 3 mask 0
mode 3 cell 176 slots 1 mask 0
bytes 02 80 08 02 11 03 00 03 B0 01 01 00" plan 02 80 08 02 11 03 00 03 B0 01 01 00
expect 0 "size 1024
mode 4 cell 176 slots 1 mask 0
mode 3 cell 0 slots 2 mask 0
bytes 02 80 08 04 B0 01 01 00 03 00 02 00" plan 02 80 08 04 B0 01 01 00 03 00 02 00
order="refused 14: At 2048, is the first zone mode 0, and does only AMC (modes 3 to 6) follow AMC?"
expect 1 "$order" plan 01 80 10 02 00 0C 00
expect 1 "$order" plan 02 80 08 04 B0 01 01 00 02 00 02 00
expect 0 "size 2048
mode 0 cell 0 slots 12 mask 63
mode 7 cell 31 slots 1 mask 0
mode 3 cell 0 slots 2 mask 0
bytes 03 80 10 00 00 0C 3F 07 1F 01 00 03 00 02 00" plan 03 80 10 00 00 0C 3F 07 1F 01 00 03 00 02 00
expect 1 "$order" plan 01 80 10 07 00 01 00
expect 1 "$order" plan 03 80 10 00 00 0C 3F 03 00 02 00 07 00 01 00
expect 1 "$mask" plan 01 80 10 02 00 0C 3F
expect 1 "$mask" plan 01 80 10 00 00 0C 00
expect 1 "refused 11: Does the value end by its third group, in shortest form?" plan 81 00
expect 1 "refused 10: Do the bytes reach to the value's end or its third group?" plan
for word in 100 1 0x1 " 1" -1 +1 0g ""; do
    expect 2 "" plan "$word"
done

# A map message over all subchannels of the first slot, and two bursts behind it.
expect 0 "3 bursts
slot 3 subchannel 25: burst 2, 3 looked at
subchannels 0 to 19: burst 1
subchannels 20 to 49: burst 2
subchannels 50 to 59: no burst" bursts 0 2048 5 12 63 3 25 0 60 0 1 0 20 1 11 20 30 1 6
expect 0 "3 bursts
slot 0 subchannel 59: burst 0, 1 looked at
subchannels 0 to 59: burst 0" bursts 0 2048 5 12 63 0 59 0 60 0 1 0 20 1 11 20 30 1 6
expect 0 "3 bursts
slot 7 subchannel 20: no burst, 3 looked at
subchannels 0 to 19: burst 1
subchannels 20 to 59: no burst" bursts 0 2048 5 12 63 7 20 0 60 0 1 0 20 1 11 20 30 1 6
# Unlit subchannels count like lit ones; a slot past the zone's has no burst.
expect 0 "1 bursts
slot 11 subchannel 59: burst 0, 1 looked at
subchannels 0 to 58: no burst
subchannels 59 to 59: burst 0" bursts 0 2048 5 12 1 11 59 59 1 11 1
expect 0 "1 bursts
slot 511 subchannel 191: no burst, 1 looked at
subchannels 0 to 191: no burst" bursts 6 2048 2351 511 0 511 191 0 192 0 511
expect 0 "1 bursts
slot 5 subchannel 31: burst 0, 1 looked at
subchannels 0 to 29: no burst
subchannels 30 to 31: burst 0" bursts 7 2048 31 6 0 5 31 30 2 5 1
expect 0 "0 bursts
slot 0 subchannel 0: no burst, 0 looked at
subchannels 0 to 3: no burst" bursts 2 256 15 1 0 0 0
expect 1 "refused 1: Is the mode listed (in a plan and of bursts: 0 or 2 to 7)?" bursts 1 2048 0 1 0 0 0
expect 1 "refused 2: Is the size that mode's (of a plan: 256, 512, 1024 or 2048)?" bursts 0 1024 32 0 64 512 60 0 0 0 0
expect 1 "refused 3: Is the cell in range?" bursts 0 2048 32 0 64 512 60 0 0 0 0
for word in 0 513 -1 4294967297; do
    expect 1 "refused 13: Are the slots 1 to 512?" bursts 0 2048 31 "$word" 64 512 60 0 0 0 0
done
expect 1 "$mask" bursts 0 2048 31 512 64 512 60 0 0 0 0
expect 1 "refused 4: Is the slot below 512, the zone's symbol below 512 times the slot length?" bursts 0 2048 31 512 63 512 60
expect 1 "refused 5: Is the subchannel in range (of a lay: and lit)?" bursts 0 2048 31 512 63 511 60
burst="refused 18: Are the bursts at most 64, of four numbers each, none empty and each wholly in its zone?"
for numbers in "0 0 0 1" "0 1 0 0" "0 61 0 1" "60 1 0 1" "59 2 0 1" "0 1 0 13" "0 1 12 1" "0 1 11 2" "-1 2 0 1" \
    "4294967295 2 0 1" "1 4294967295 0 1" "0 1 4294967290 8" "4294967296 1 0 1" "0 1 18446744073709551616 1"; do
    expect 1 "$burst" bursts 0 2048 5 12 63 0 0 $numbers
    expect 1 "$burst" bursts 0 2048 5 12 63 0 0 2 3 4 5 $numbers 3 1 4 1
done
overlap="refused 19: Is the burst apart from every earlier one?"
for numbers in "2 3 4 5" "4 9 8 4" "0 3 0 5" "0 60 8 1" "3 1 4 1"; do
    expect 1 "$overlap" bursts 0 2048 5 12 63 0 0 2 3 4 5 $numbers 0 0 0 0
done
for numbers in "5 1 4 5" "0 2 0 12" "2 3 0 4" "2 3 9 3" "5 55 9 3"; do
    expect 0 "2 bursts
slot 12 subchannel 0: no burst, 2 looked at
subchannels 0 to 59: no burst" bursts 0 2048 5 12 63 12 0 2 3 4 5 $numbers
done
all=$(for n in $(seq 0 63); do echo "$n 1 0 1"; done)
expect 0 "64 bursts
slot 0 subchannel 64: no burst, 64 looked at
$(for n in $(seq 0 63); do echo "subchannels $n to $n: burst $n"; done)
subchannels 64 to 191: no burst" bursts 6 2048 0 1 0 0 64 $all
expect 1 "$burst" bursts 6 2048 0 1 0 0 64 $all 64 1 0 1
for numbers in "0" "0 1" "0 1 0" "0 1 0 1 1" "0 1 0 x" "0,1,0,1" "0 1 0 +1"; do
    expect 2 "" bursts 0 2048 5 12 63 0 0 $numbers
done
expect 2 "" bursts 0 2048 5 12 63 0

expect 2 "" point "$(printf '\377')" 1024 17 0 0 0

# Text that cannot be written is no answer, nor a refusal.
for cell in 17 256; do
    ended=0
    ${prefix}point 2 1024 $cell 0 0 0 >/dev/full 2>/dev/null || ended=$?
    if [ "$ended" -ne 2 ]; then
        echo "${prefix}point ended with $ended instead of 2 where nothing can be written"
        exit 1
    fi
done
