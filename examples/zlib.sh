#!/bin/sh
# Closes the pointer graph of a real program: fetches the source of zlib by its Debian source package, compiles it to
# LLVM IR, converts that, closes it under the alias grammar, and asks what may alias, by name.
#
#   examples/zlib.sh FOLDER        FOLDER is made, and takes some 600 MB of disk; some minutes
#
# A package source of the system isn't touched: apt keeps its lists in FOLDER. MIRROR and SUITE of the environment name
# another mirror or release of Debian, SOURCE a folder with a source of zlib that is there already.
set -eu
here=$(dirname "$(readlink -f "$0")")
top=$(dirname "$here")
[ $# -eq 1 ] || { sed -n '2,9s/^# \{0,1\}//p' "$0" >&2; exit 1; }

wants() {
    command -v "$1" >/dev/null 2>&1 || { echo "zlib.sh: there is no $1; on Debian: apt-get install $2" >&2; exit 1; }
}
wants clang clang
wants python3 python3
mkdir -p "$1"
cd "$1"

fetch() {
    wants apt-get apt
    mkdir -p apt/lists/partial apt/cache/archives/partial
    echo "deb-src ${MIRROR:-http://deb.debian.org/debian} ${SUITE:-bookworm} main" >apt/sources.list
    cat >apt/apt.conf <<END
Dir::Etc::sourcelist "$PWD/apt/sources.list";
Dir::Etc::sourceparts "/dev/null";
Dir::State::lists "$PWD/apt/lists";
Dir::Cache "$PWD/apt/cache";
END
    APT_CONFIG=$PWD/apt/apt.conf apt-get -qq update
    APT_CONFIG=$PWD/apt/apt.conf apt-get -qq source --download-only zlib
    mkdir -p source
    tar xf zlib_*.orig.tar.* -C source --strip-components=1
}
if [ -n "${SOURCE:-}" ]; then
    source=$SOURCE
else
    [ -f source/inflate.c ] || fetch
    source=$PWD/source
fi

mkdir -p ir
for file in "$source"/*.c "$source"/test/minigzip.c; do
    clang -S -emit-llvm -O0 -g -w -DHAVE_UNISTD_H -I "$source" -c "$file" -o "ir/$(basename "$file" .c).ll"
done
echo "lines of C: $(cat "$source"/*.c "$source"/*.h "$source"/test/minigzip.c | wc -l)"
"$top/tools/llvm_edges.py" --fields named ir/*.ll >zlib.edges
sed -n 1p zlib.edges

started=$(date +%s)
"$top/graspan" store run zlib.edges "$here/alias.grammar"
echo "closed in $(($(date +%s) - started)) seconds"

# What may be written through one expression and read through another, each named as it stands in the source.
ask() {
    number=$("$top/tools/graspan_names.py" zlib.edges --find "$1" | sed -n '1s/ .*//p')
    echo "may alias $1:"
    "$top/graspan" store query M "$number" | "$top/tools/graspan_names.py" zlib.edges | sed -n '1,5p;$p'
}
ask '*out in inflate_fast (inffast.c:120)'
ask '*scan in longest_match (deflate.c:1376)'
ask 'prev[..] in longest_match (deflate.c:1417)'
