#!/bin/sh
# Seconds, peak memory and counts of `bench pair`, which closes a graph in memory as one partition on one thread.
# Words: the folder of the graphs and grammars. Wants rt and GNU time.
set -eu
top=$(cd "$(dirname "$0")/.." && pwd)
data=${1:?wanted: the folder of the graphs}
built=$(cd "$top/crates/bench" && rt run 2>&1) || { echo "$built" >&2; exit 1; }
for pair in inftrees.alias adler32.alias less-search.alias tc-dag-small.tc dyck-small.dyck flow-small.dataflow zlib.alias; do
    graph=${pair%.*}
    grammar=${pair##*.}
    echo "$graph, $grammar"
    /usr/bin/time -f '%U s user, %S s system, %e s in all, %M KiB at most' \
        "$top/crates/bench/out/bench" pair "$data/$graph.edges" "$data/$grammar.grammar" 2>&1 | sed 's/^/  /'
done
