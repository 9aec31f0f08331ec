#!/usr/bin/env bash
# proved.sh [NAME]: proves all crates, or NAME and those below it, side by side, the lower first, and keeps in
# crates/*/out what later checks and builds begin with. It says how many of how many are done as it goes. All that rt
# says stands in target/proved.log, and is shown if something fails. RT_JOBS says how many crates are proved at a time;
# if it is not set, there is one for each processor, as far as memory goes.
set -euo pipefail
cd "$(dirname "$0")/.."
mkdir -p target
log=$PWD/target/proved.log

# how many: NAME and those below it, by crates.txt, which has the lowest first
all=$(awk -F: -v name="${1:-}" '
    /^[a-z_0-9]+( staticlib)? *:/ { split($1, words, " "); order[++many] = words[1]; below[words[1]] = $2 }
    END {
        wanted[name] = 1
        for (k = many; k > 0; k--)
            if (wanted[order[k]] || name == "") {
                found++
                count = split(below[order[k]], words, " ")
                for (w = 1; w <= count; w++) wanted[words[w]] = 1
            }
        print found
    }' crates.txt)

told() { # told: from what rt says, a line for each crate once its check has ended
    awk -v all="$all" '/^== [a-z_0-9]+$/ && $2 != "summary" { printf "  %2d of %d: %s\n", ++done, all, $2; fflush() }'
}

# a processor and 2.5 GB for each
RT_JOBS=${RT_JOBS:-$(awk -v cores="$(nproc)" '/^MemAvailable:/ {
    room = int($2 / 2500000)
    print room < 1 ? 1 : room < cores ? room : cores
}' /proc/meminfo)}
echo "proving $all crates, $RT_JOBS at a time: minutes where they are not proved yet, seconds where they are"
# in a crate's own folder `rt all` takes it and those below it, and no other
cd "${1:+crates/}${1:-.}"
rt all check --jobs "$RT_JOBS" 2>&1 | tee "$log" | told || {
    cat "$log"
    exit 1
}
