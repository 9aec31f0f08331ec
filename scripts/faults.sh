#!/bin/sh
# faults.sh: the host, the program month and the bridge under valgrind and the sanitizers. What host and month say is
# held to what is stored, and the second program compares some families over the bridge.
#
# All run what this processor runs: on x86-64 the library itself, elsewhere plain C in its place, and valgrind
# there only if it is at hand. Under valgrind each row is memory of just its size, so a touch beside a row is an
# error, and the lent buffer is not set, so that what a call leaves unwritten, or makes of old contents, is one too.
set -eu
cd "$(dirname "$0")/.."
families=empty_rows,read_rooms,write_edges,cut_recordings,long_refused,coming_rooms,leads_as_sent,find_edges
families=$families,why_numbers,why_checks,report_lists,report_edges,report_text,store_written,store_orders
families=$families,store_largest,one_row,compare_refused,compare_itself,compare_lengths,compare_rows,read_1997_orders
flags='-std=c99 -Wall -Wextra -Wpedantic -Werror -Iinclude -g'
sanitized='-fsanitize=address,undefined -fno-sanitize-recover=all'
if [ "$(uname -m)" = x86_64 ]; then
    library=target/staticlib/libdsss.a
else
    library='-DPLAIN_AS_DSSS bench/plain_write.c bench/plain_choose.c bench/plain_read.c bench/plain_find.c
        bench/plain_compare.c bench/plain_report.c bench/plain_store.c'
fi
mkdir -p target/c
build() { # build PROGRAM FILES.. [FLAGS]: target/c/PROGRAM.faults with the sanitizers, target/c/PROGRAM.native without
    program=$1
    shift
    # shellcheck disable=SC2086 # lists of words
    {
        ${CC:-cc} $flags $sanitized "$@" $library -o "target/c/$program.faults"
        ${CC:-cc} $flags -O1 "$@" $library -o "target/c/$program.native"
    }
}
build host examples/host/*.c
build bridge tests/bridge/bridge.c
build month programs/month.c
build month_half programs/month.c tests/month/half.c -Dfopen=half_open
target/c/host.faults >target/c/faults.stdout
diff -u examples/host/stdout target/c/faults.stdout
# Leaks are not looked for, which takes seconds a run: month allocates nothing, and its test limits the open files.
ASAN_OPTIONS=detect_leaks=0 tests/month/run '' target/c/month.faults target/c/month_half.faults
target/peer/peer --brief --family $families,unusable_octets -- target/c/bridge.faults
if [ "$(uname -m)" != x86_64 ] && ! command -v valgrind >/dev/null 2>&1; then
    echo 'faults.sh: host, month and bridge clean; no valgrind here'
    exit
fi
valgrind --quiet --error-exitcode=9 target/c/host.native >target/c/faults.stdout
diff -u examples/host/stdout target/c/faults.stdout
tests/month/run 'valgrind --quiet --error-exitcode=9' target/c/month.native target/c/month_half.native
target/peer/peer --brief --family $families,read_long_payloads -- \
    valgrind --quiet --error-exitcode=9 target/c/bridge.native exact
echo 'faults.sh: host, month and bridge clean'
