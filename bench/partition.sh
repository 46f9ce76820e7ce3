#!/bin/sh
# Edges per second of the codec of partition files in both formats, beside plain loops in Rust over the same bytes: one
# million edges, ten in a row. The least time of five rounds counts. Wants rt and rustc.
set -eu
top=$(cd "$(dirname "$0")/.." && pwd)
folder=$(mktemp -d)
trap 'rm -rf "$folder"' EXIT
rustc --edition 2021 -O -o "$folder/plain" "$top/bench/partition_plain.rs"
(cd "$top/crates/bench" && rt run) >"$folder/build" 2>&1 || { cat "$folder/build" >&2; exit 1; }
# Whether malloc maps a buffer afresh in each round hangs on the sizes of the others, and the page faults then take as
# long as the loop. Both programs keep what they were given once, so that the loops alone are compared.
export MALLOC_MMAP_THRESHOLD_=4000000000 MALLOC_TRIM_THRESHOLD_=4000000000 MALLOC_TOP_PAD_=268435456
"$top/crates/bench/out/bench" partition 2>"$folder/ours" >/dev/null
"$folder/plain" >"$folder/theirs"
awk '
    function least(name, time) { if (!(name in best) || time < best[name]) best[name] = time }
    FILENAME ~ /ours/ && $2 == "reader" { least($1 " pieces", $3); least($1 " decode", $5); least($1 " encode", $7) }
    FILENAME ~ /theirs/ { least($1 " plain decode", $4); least($1 " plain encode", $6) }
    END {
        split("encode|plain encode|decode|plain decode|pieces", names, "|")
        split("first|second", formats, "|")
        for (f = 1; f <= 2; f++)
            for (i = 1; i <= 5; i++) {
                name = formats[f] " " names[i]
                printf "%-20s %7.1f million edges a second\n", name, 1 / best[name] * 1000000
            }
    }' "$folder/ours" "$folder/theirs"
