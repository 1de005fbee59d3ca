#!/bin/sh
# Makes uftrace.json: the calls of small.c, as `uftrace dump --chrome` writes them. Needs gcc and uftrace.
#
# usage: uftrace.sh FOLDER
set -eu

here=$(cd "$(dirname "$0")" && pwd)
folder=$(cd "$1" && pwd)
scratch=$(mktemp -d)
trap 'rm -rf "$scratch"' EXIT
gcc -pg -O0 -pthread -o "$scratch/small" "$here/small.c"
cd "$scratch"
uftrace record --no-event -d calls ./small
uftrace dump --chrome -d calls > "$folder/uftrace.json"
