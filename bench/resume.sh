#!/bin/sh
# Kills a run by a signal and resumes it: what it prints is what a run prints that wasn't killed.
# Words: the folder of the graphs and grammars, and how many seconds to wait before the signal (0.5 if none are given).
# Wants rt.
set -eu
top=$(cd "$(dirname "$0")/.." && pwd)
data=${1:?wanted: the folder of the graphs}
wait=${2:-0.5}
folder=$(mktemp -d)
trap 'rm -rf "$folder"' EXIT
"$top/graspan" --version >/dev/null
program=$top/crates/graspan/out/graspan
run() { "$program" "$1" run "$data/less-search.edges" "$data/alias.grammar" --part-edges 300 --show M; }

run "$folder/whole" >"$folder/whole.out"
# the program itself and no function around it, so that the signal meets it
"$program" "$folder/killed" run "$data/less-search.edges" "$data/alias.grammar" --part-edges 300 --show M >"$folder/killed.out" &
sleep "$wait"
if kill -KILL $! 2>/dev/null; then
    wait $! 2>/dev/null || true
    echo "killed after $wait s; the store says:"
    "$program" "$folder/killed" parts | tail -n 1
else
    echo "it ended before the signal: give fewer seconds"
fi
run "$folder/killed" >"$folder/resumed.out"
if cmp -s "$folder/whole.out" "$folder/resumed.out"; then
    echo "resumed: the same output"
else
    echo "resumed: another output"
    exit 1
fi
