#!/usr/bin/env bash
# staticlib.sh NAME: proves NAME and the crates that it stands on, and builds target/staticlib/libNAME.a. What rt says
# of the build stands in target/staticlib.NAME.log, and is shown if it fails.
set -euo pipefail
cd "$(dirname "$0")/.."
name=$1
mkdir -p target/staticlib
log=$PWD/target/staticlib.$name.log archive=target/staticlib/lib$name.a

scripts/proved.sh "$name"
began=$SECONDS
# code that every x86-64 processor runs: without a word it would be for those with SSE4.2
(cd "crates/$name" && rt lib --cpu=x86-64) >"$log" 2>&1 || {
    cat "$log"
    exit 1
}
cp "crates/$name/out/lib$name.a" "$archive"
printf '  %s is built (%d s)\n' "$archive" $((SECONDS - began))
