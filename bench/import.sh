#!/bin/sh
# Seconds and edge lines per second of an import of 2,000,000 edge lines, as one partition and with at most 1,000,000
# lines in each, beside `wc -l` and a plain reader in Rust over the same file, which reads it once and keeps no edge.
# Seconds are those of the processor, user and system, in all; the least of five rounds counts. The disk is a folder of
# files, without syncs. Wants rt, rustc and GNU time.
set -eu
top=$(cd "$(dirname "$0")/.." && pwd)
folder=$(mktemp -d)
trap 'rm -rf "$folder"' EXIT
lines=2000000
awk -v n=$lines 'BEGIN {
    for (i = 0; i < n; i++) printf "%d %d %s\n", (i * 7919) % 1000003, (i * 104729) % 999983, i % 3 ? "a" : "b"
}' >"$folder/edges"
printf 'S a b\nS S S\n' >"$folder/grammar"
rustc --edition 2021 -O -o "$folder/plain" "$top/bench/import_plain.rs"
(cd "$top/crates/bench" && rt run) >"$folder/build" 2>&1 || { cat "$folder/build" >&2; exit 1; }
# Words: a name for the row, and the command.
timed() {
    name=$1
    shift
    /usr/bin/time -o "$folder/time" -f '%U %S' "$@" >"$folder/said" 2>&1
    awk -v name="$name" '{ print name "|" $1 + $2 }' "$folder/time" >>"$folder/times"
}
import() {
    rm -rf "$folder/store"
    mkdir "$folder/store"
    timed "$1" "$top/crates/bench/out/bench" import "$folder/edges" "$folder/grammar" "$folder/store" "$2"
}
for round in 1 2 3 4 5; do
    timed 'wc -l' wc -l "$folder/edges"
    timed 'plain reader' "$folder/plain" "$folder/edges"
    import 'import, one partition' 2000000
    import 'import, two partitions' 1000000
done
awk -F '|' -v lines=$lines '
    !($1 in best) { order[++count] = $1; best[$1] = $2 }
    $2 < best[$1] { best[$1] = $2 }
    END {
        for (i = 1; i <= count; i++) {
            seconds = best[order[i]]
            printf "%-24s %5.2f s", order[i], seconds
            if (seconds > 0) printf "  %6.1f million lines a second", lines / seconds / 1000000
            printf "\n"
        }
    }' "$folder/times"
