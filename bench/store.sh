#!/bin/sh
# Seconds, peak memory, bytes written and rounds of whole runs of the program on a store, with one partition and with
# several. Words: the folder of the graphs and grammars. Wants rt and GNU time.
set -eu
top=$(cd "$(dirname "$0")/.." && pwd)
data=${1:?wanted: the folder of the graphs}
folder=$(mktemp -d)
trap 'rm -rf "$folder"' EXIT
"$top/graspan" --version >/dev/null

# the round, at place 6 of the slot whose gate is open: one more than the rounds of joins that added edges
round() {
    for slot in g0000 g0001; do
        [ "$(od -An -tu1 -N1 "$folder/store/$slot" | tr -d ' ')" = 1 ] && od -An -tu8 -j6 -N8 "$folder/store/$slot" | tr -d ' '
    done
}

measure() {
    rm -rf "$folder/store"
    /usr/bin/time -o "$folder/time" -f '%U s user, %S s system, %e s in all, %M KiB at most, %O blocks of 512 bytes written' \
        "$top/crates/graspan/out/graspan" "$folder/store" run "$data/$1.edges" "$data/$2.grammar" --part-edges "$3" >"$folder/out"
    awk -v limit="$3" '
        $1 == "part" { parts++; all += $5 }
        END { printf "  %d partitions (limit %d), %d edges, ", parts, limit, all }' "$folder/out"
    cat "$folder/time"
    echo "    round $(round)"
    du -s --apparent-size -B1 "$folder/store" | awk '{ printf "    %.1f MB of files at the end\n", $1 / 1000000 }'
}

for pair in inftrees.alias adler32.alias less-search.alias tc-dag-small.tc dyck-small.dyck flow-small.dataflow zlib.alias; do
    graph=${pair%.*}
    grammar=${pair##*.}
    echo "$graph, $grammar"
    measure "$graph" "$grammar" 1000000
    lines=$(grep -cv '^#' "$data/$graph.edges")
    measure "$graph" "$grammar" $((lines / 4 + 1))
done
