#!/bin/sh
# Makes the tables of ../../repeats: compiles small.cpp five times as it is and five times with <functional> included, in turns, and sums
# each trace by header. Needs clang++ and tracebook.
#
# usage: repeats.sh FOLDER
set -eu

here=$(cd "$(dirname "$0")" && pwd)
folder=$(cd "$1" && pwd)
scratch=$(mktemp -d)
trap 'rm -rf "$scratch"' EXIT
cp "$here/small.cpp" "$scratch/before.cpp"
sed '/<vector>/a #include <functional>' "$here/small.cpp" > "$scratch/after.cpp"
cd "$scratch"
for turn in 1 2 3 4 5; do
    for side in before after; do
        clang++ -ftime-trace -ftime-trace-granularity=2000 -c "$side.cpp" -o "$side.o"
        tracebook --json --group-by args.detail --only c++/12/ "$side.json" > "$folder/$side$turn.jsonl"
    done
done
