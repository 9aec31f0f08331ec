#!/usr/bin/env bash
# gate.sh: everything that must pass before a change counts. Its last line is that of `rt ci`,
# 'N passed, 0 failed', printed again only when all that follows the proofs has passed too; any failure
# ends it with a status other than 0.
set -euo pipefail
cd "$(dirname "$0")/.."

stage() { printf '\n== %s (%s s)\n' "$1" "$SECONDS"; }

stage 'packages and kit'
scripts/packages.sh test
rt version

stage 'text of the tree'
# nothing that Python keeps stands in the tree when rt looks at it
export PYTHONDONTWRITEBYTECODE=1
python3 scripts/tree.py
python3 scripts/promises.py --check
python3 scripts/believed.py --check
python3 scripts/imports.py
python3 scripts/live.py --self-test

stage 'layout, proofs, must-fail edits, programs'
# what still runs beside a stage that failed ends with it
trap 'rm -f "$log" "$faults"; kill $(jobs -p) 2>/dev/null || :' EXIT
log='' faults=''
log=$(mktemp)
faults=$(mktemp)
rt ci 2>&1 | tee "$log"
verdict=$(tail -n 1 "$log")
case $verdict in
*' passed, 0 failed') ;;
*)
    echo "gate.sh: the last line of rt ci is no pass: $verdict" >&2
    exit 1
    ;;
esac
# an edit that could not be tried shows nothing, and one at which the prover gave up shows little: rt ci passes both
if ! grep -q '^rt: ok; ' "$log" || grep -Eq '^rt: ok; .*, [0-9]+ (bad|of them only by a limit)' "$log"; then
    echo 'gate.sh: must-fail edits are bad or refused by a limit only, or rt ci does not say that none is' >&2
    exit 1
fi

stage 'proofs once more, kept for what follows'
scripts/proved.sh

stage 'edits: wrong programs and definitions, refused'
python3 scripts/refused.py --self-test
python3 scripts/refused.py

stage 'header'
tests/header/run

stage 'host'
make --no-print-directory demo

stage 'archive'
scripts/archive.py --self-test target/staticlib/libdsss.a

stage 'month'
make --no-print-directory month

stage 'install'
tests/install/run

stage 'second program, over rows between guards; beside it, host, month and bridge under fault'
make --no-print-directory target/c/bridge target/peer/peer
make --no-print-directory faults >"$faults" 2>&1 &
target/peer/peer -- scripts/x86run target/c/bridge
wait $! || {
    cat "$faults" >&2
    exit 1
}
cat "$faults"

stage 'second program, beside the lines of month'
target/peer/peer --brief --month -- scripts/x86run target/c/month

stage 'second program, over rows that end where memory ends'
target/peer/peer --brief --family \
    empty_rows,odd_rows,write_short_payloads,write_edges,read_rooms,read_long_payloads,cut_recordings,unusable_octets,\
unusable_values,random_bytes,long_payloads,long_unusable,long_cuts,long_rooms,long_refused,coming_rooms,\
payloads_not_looked_at,ties_eleven_broken,leads_of_one_symbol,find_edges,find_damage,find_all,why_rooms,why_numbers,\
why_places,report_lists,report_edges,report_text,store_written,store_orders,store_changes,store_small,store_octets,\
store_newer,store_largest,store_shapes,store_bodies,spoiled_sizes,spoiled_starts,one_row,wide_writes,wide_recordings,\
wide_rooms,wide_searches,compare_receivers,compare_frames,compare_refused,compare_numbers,compare_sent,compare_itself,\
compare_lengths,compare_rows,compare_octets,compare_wide,read_1997_frames,read_1997_spoiled,read_1997_orders,\
read_1997_short_fronts,read_1997_wide \
    -- scripts/x86run target/c/bridge pages

stage 'wrong versions of plain C'
make --no-print-directory wrong

stage 'all passed'
printf '%s\n' "$verdict"
