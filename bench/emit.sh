#!/bin/sh
# Seconds and peak memory of `emit alias` on C texts of 1, 2, 4 and 8 MB, beside `cc -fsyntax-only` of the same text.
# The text of 8 MB has 20,000 functions of 407 bytes: assignments, calls, dereferences. Seconds are those of the
# processor, user and system; the least of three rounds counts. Wants the built program (GRASPAN of the environment
# names another one), cc and GNU time.
set -eu
top=$(cd "$(dirname "$0")/.." && pwd)
program=${GRASPAN:-}
if [ -z "$program" ]; then
    "$top/graspan" --version >/dev/null
    program=$top/crates/graspan/out/graspan
fi
folder=$(mktemp -d)
trap 'rm -rf "$folder"' EXIT
# Word: how many functions. Each calls an earlier one.
text() {
    awk -v n="$1" 'BEGIN {
        for (i = 0; i < n; i++) {
            callee = i ? (i * 7919) % i : 0
            printf "int *f%05d(int *p, int **q) {\n    int *a = p, **b = &a, n = 1;\n    while (n < 9) {\n", i
            printf "        *b = *q;\n        a = f%05d(*b, q);\n", callee
            printf "        if (a == NULL) a = malloc(n + 4);\n        else **b = *a - n;\n        n = n + *p;\n    }\n"
            printf "    /* What the two pointers lead to is changed. */\n    f%05d(p, &p);\n    *q = a;\n    b = q;\n", callee
            printf "    { int *c = *b; *a = *c; *c = n; p = c; c = f%05d(a, b); **q = *c; }\n", callee
            printf "    return *b;\n}\n"
        }
    }'
}
# Words: a name for the row, and the command. Its greatest memory is that of the last round.
timed() {
    name=$1
    shift
    /usr/bin/time -o "$folder/time" -f '%U %S %M' "$@" >"$folder/out"
    awk -v name="$name" '{ print name "|" $1 "|" $2 "|" $3 }' "$folder/time" >>"$folder/times"
}
for mb in 1 2 4 8; do
    text $((2500 * mb)) >"$folder/$mb.c"
    for round in 1 2 3; do
        timed "emit, $mb MB" "$program" "$folder/store" emit alias "$folder/$mb.c"
        grep -vc '^#' "$folder/out" >"$folder/edges"
        timed "cc -fsyntax-only, $mb MB" cc -w -DNULL='((void *)0)' -fsyntax-only "$folder/$mb.c"
    done
    echo "$mb MB: $(wc -c <"$folder/$mb.c") bytes, $(cat "$folder/edges") edges"
done
awk -F '|' '
    !($1 in best) { order[++count] = $1; best[$1] = $2 + $3; row[$1] = $0 }
    $2 + $3 < best[$1] { best[$1] = $2 + $3; row[$1] = $0 }
    END {
        for (i = 1; i <= count; i++) {
            split(row[order[i]], at, "|")
            printf "%-24s %6.2f s user %6.2f s system %6.0f MB\n", at[1], at[2], at[3], at[4] / 1000
        }
    }' "$folder/times"
