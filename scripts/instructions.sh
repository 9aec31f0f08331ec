#!/bin/sh
# instructions.sh [-l dsss|plain|all] [-c write|hard|soft|bytes|front|choice|find|why|1997|compare|report|store|all]
#                 [-k long|short] [-r RATE|all] [-n OCTETS]
#
# Instructions a chip of whole calls: one line a call, rate and library, that is the library and plain C. A read of the
# front looks at no payload chip: its instructions are counted with few octets and with most, at 1 and 11 Mbit/s, if
# none are asked for, and should not differ. A choice is that of a block of 64 symbols of 11 Mbit/s alone. A find is
# made in each recording of bench/recordings.h, with 4,096 offsets, in noise with fewer too, or with as many as -n
# says; its figure is not instructions a chip, but how many reads of a long front by the same library they are. A call
# that asks why is made of frames that are not refused, which takes it longest, and of one refused by its CRC; its
# figure is how many hard reads of the same recording it is, and should be 1.10 at most. A read as the guides of 1997 do
# is made of long frames at 1 and 2 Mbit/s, and of one at 5.5 Mbit/s, which they refuse; its figure is how many hard
# reads it is. A comparison is made of a frame and of each second recording that bench/pairs.h names, with a row for
# just the chips that differ; its figure is what it takes more than the two hard reads, by the chip. Of the report an
# add of an empty recording, adds of frames and a text are counted; the figure of an add is what it takes more than a
# hard read of the same frame with room for 4,095 octets. Of a store those calls are counted that bench/stores.h names.
# Each figure is the difference of two runs, without the call and with it. On x86-64 valgrind counts (callgrind);
# elsewhere the emulator of the kit logs each instruction that it runs, about a million a second, and the lines of its
# log are counted. The archives of target/ are taken as they stand, and only those asked for: `make archives` makes all.
set -eu
cd "$(dirname "$0")/.."

library=all call=all kind=long rate=all octets=
while getopts l:c:k:r:n: option; do
    case $option in
    l) library=$OPTARG ;;
    c) call=$OPTARG ;;
    k) kind=$OPTARG ;;
    r) rate=$OPTARG ;;
    n) octets=$OPTARG ;;
    *) exit 2 ;;
    esac
done
[ "$library" != all ] || library='dsss plain'
[ "$call" != all ] || call='write hard soft bytes front choice find why 1997 compare report store'
mkdir -p target/c
work=$(mktemp -d)
trap 'rm -rf "$work"' EXIT

# build LIBRARY [CHOICE|FIND|WHY|COMPARE|REPORT|STORE]: $program counts its calls, or these, and is not older than what
# it is made of
build() {
    program=target/c/count.$1${2:+.$2}
    case $1.$2 in
    plain.*) archive='' of=-DOF_PLAIN ;;
    dsss.CHOICE) archive=target/staticlib/libbench_leaves.a of='' ;;
    dsss.*) archive=target/staticlib/libdsss.a of='' ;;
    *)
        echo "instructions.sh: no library $1" >&2
        exit 2
        ;;
    esac
    [ -z "$archive" ] || [ -f "$archive" ] || {
        echo "instructions.sh: no archive $archive: run make archives" >&2
        exit 2
    }
    # shellcheck disable=SC2086 # words that may be missing
    if [ ! -f $program ] || [ -n "$(find $archive bench include -newer $program)" ]; then
        scripts/x86cc $program bench/count.c bench/plain_*.c $archive -- -std=c99 -Iinclude -O3 -fno-trapping-math \
            $of ${2:+-D$2}
    fi
}

counted() { # counted WORDS..: the instructions of one run of the program
    if [ "$(uname -m)" = x86_64 ]; then
        valgrind --tool=callgrind --callgrind-out-file="$work/out" "$program" "$@" >"$work/chips" 2>"$work/said"
        sed -n 's/.*Collected : *\([0-9]*\).*/\1/p' "$work/said"
        return
    fi
    [ -p "$work/log" ] || mkfifo "$work/log"
    wc -l <"$work/log" >"$work/lines" &
    QEMU_ONE_INSN_PER_TB=1 QEMU_LOG=exec,nochain QEMU_LOG_FILENAME="$work/log" \
        scripts/x86run "$program" "$@" >"$work/chips"
    wait $!
    cat "$work/lines"
}

row() { # row OF CALL KIND RATE OCTETS CHIPS INSTRUCTIONS EACH
    printf '%-6s  %-13s  %-5s  %4s  %7s  %7s  %12s  %8s\n' "$@"
}

spent() { # spent CALL KIND RATE OCTETS: the instructions of one call; $work/chips says of how many chips
    without=$(counted "$@" 0)
    with=$(counted "$@" 1)
    echo $((with - without))
}

by() { # by NUMBER NUMBER: the first by the second
    awk "BEGIN { printf \"%.2f\", $1 / $2 }"
}

line() { # line LIBRARY CALL RATE OCTETS [CHOICE]
    build "$1" "${5:-}"
    taken=$(spent "$2" "$kind" "$3" "$4")
    chips=$(cat "$work/chips")
    row "$1" "${5:+choice }$2" "$kind" "$3" "$4" "$chips" "$taken" "$(by "$taken" "$chips")"
}

find_line() { # find_line LIBRARY RECORDING OFFSETS FRONT: FRONT is the instructions of a front's read
    build "$1" FIND
    taken=$(spent "$2" "$kind" - "$3")
    row "$1" "find $2" "$kind" - "$3" "$(cat "$work/chips")" "$taken" "$(by "$taken" "$4")"
}

find_lines() { # find_lines LIBRARY: the recordings, by most offsets, and noise by fewer; or all by those asked for
    build "$1" ''
    front=$(spent front long 10 10)
    for n in ${octets:-1 64 512 4096}; do
        find_line "$1" noise "$n" "$front"
    done
    for recording in lost last unusable sfds; do
        find_line "$1" $recording "${octets:-4096}" "$front"
    done
}

why_line() { # why_line LIBRARY CRC RATE OCTETS: a hard read and why, of a frame as it is or, CRC being crc, spoiled
    read=$(spent "read${2:+_$2}" "$kind" "$3" "$4")
    chips=$(cat "$work/chips")
    row "$1" "read hard${2:+ $2}" "$kind" "$3" "$4" "$chips" "$read" -
    taken=$(spent "why${2:+_$2}" "$kind" "$3" "$4")
    row "$1" "why${2:+ $2}" "$kind" "$3" "$4" "$chips" "$taken" "$(by "$taken" "$read")"
}

why_lines() { # why_lines LIBRARY: frames of each rate, and a front that is refused
    build "$1" WHY
    for r in $(rates_or '10 20 55 110'); do
        [ "$kind $r" != 'short 10' ] || continue
        for n in ${octets:-1500}; do
            why_line "$1" '' "$r" "$n"
        done
    done
    why_line "$1" crc "$(rates_or 110)" "${octets:-1500}"
}

guides_line() { # guides_line LIBRARY CALL RATE NAME: a long frame read as the guides of 1997 do
    for n in ${octets:-1500}; do
        read=$(spent hard long "$3" "$n")
        taken=$(spent "$2" long "$3" "$n")
        row "$1" "$4" long "$3" "$n" "$(cat "$work/chips")" "$taken" "$(by "$taken" "$read")"
    done
}

guides_lines() { # guides_lines LIBRARY: frames of the rates that they know, and one that they refuse
    build "$1" ''
    for r in $(rates_or '10 20 55'); do
        case $r in
        10 | 20) guides_line "$1" 1997 "$r" 'read 1997' ;;
        *) guides_line "$1" refused_1997 "$r" 'refused 1997' ;;
        esac
    done
}

compare_lines() { # compare_lines LIBRARY: a frame and each second recording
    build "$1" COMPARE
    for r in $(rates_or 110); do
        [ "$kind $r" != 'short 10' ] || continue
        for n in ${octets:-1500}; do
            for pair in equal few all; do
                reads=$(spent ${pair}_reads "$kind" "$r" "$n")
                taken=$(spent $pair "$kind" "$r" "$n")
                chips=$(cat "$work/chips")
                row "$1" "compare $pair" "$kind" "$r" "$n" "$chips" "$taken" "$(by "($taken - $reads)" "$chips")"
            done
        done
    done
}

report_lines() { # report_lines LIBRARY: an empty recording, frames of few and of many octets, and the text
    build "$1" REPORT
    row "$1" 'report empty' "$kind" - 0 0 "$(spent empty "$kind" 20 1)" -
    for r in $(rates_or '20 110'); do
        for n in ${octets:-10 1500}; do
            read=$(spent read "$kind" "$r" "$n")
            taken=$(spent add "$kind" "$r" "$n")
            row "$1" 'report add' "$kind" "$r" "$n" "$(cat "$work/chips")" "$taken" "$((taken - read))"
        done
    done
    row "$1" 'report text' - - - - "$(spent text "$kind" 20 1)" -
}

store_lines() { # store_lines LIBRARY: reads of three stores, a change and a write
    build "$1" STORE
    for one in read longest refused change write; do
        taken=$(spent $one long 110 1)
        row "$1" "store $one" - - "$(cat "$work/chips")" - "$taken" -
    done
}

rates_or() { # rates_or RATES: those asked for, or these
    if [ "$rate" = all ]; then echo "$1"; else echo "$rate"; fi
}

lines() { # lines CALL RATES SIZES [CHOICE]: a choice is that of a block, whatever OCTETS says
    sizes=${octets:-$3}
    [ -z "${4:-}" ] || sizes=$3
    for r in $2; do
        [ "$kind $r" != 'short 10' ] || continue
        for n in $sizes; do
            for l in $library; do
                line "$l" "$1" "$r" "$n" "${4:-}"
            done
        done
    done
}

case $call in
find | why | 1997 | compare | report | store) ;;
*) row of call kind rate octets chips instructions 'a chip' ;;
esac
for c in $call; do
    case $c in
    choice)
        for recorder in hard soft bytes; do
            lines $recorder 110 1500 CHOICE
        done
        ;;
    find)
        row of call kind rate offsets chips instructions fronts
        for l in $library; do
            find_lines "$l"
        done
        ;;
    why)
        row of call kind rate octets chips instructions reads
        for l in $library; do
            why_lines "$l"
        done
        ;;
    1997)
        row of call kind rate octets chips instructions reads
        for l in $library; do
            guides_lines "$l"
        done
        ;;
    compare)
        row of call kind rate octets chips instructions 'past reads'
        for l in $library; do
            compare_lines "$l"
        done
        ;;
    report)
        row of call kind rate octets chips instructions 'past read'
        for l in $library; do
            report_lines "$l"
        done
        ;;
    store)
        row of call kind rate octets chips instructions -
        for l in $library; do
            store_lines "$l"
        done
        ;;
    front) lines front "$(rates_or '10 110')" '10 4095' ;;
    *) lines "$c" "$(rates_or '10 20 55 110')" 1500 ;;
    esac
done
