#!/bin/sh
# Makes go_run.json: builds and runs small.go, which traces itself, and asks `go tool trace` for its viewer's JSON. Needs go and curl.
#
# usage: go_run.sh FOLDER
set -eu

here=$(cd "$(dirname "$0")" && pwd)
folder=$(cd "$1" && pwd)
scratch=$(mktemp -d)
viewer=
trap 'rm -rf "$scratch"; [ -z "$viewer" ] || kill "$viewer"' EXIT
go build -o "$scratch/small" "$here/small.go"
"$scratch/small" > "$scratch/trace.out"
BROWSER=true go tool trace -http=127.0.0.1:6061 "$scratch/trace.out" 2> /dev/null &
viewer=$!
curl --silent --fail --retry 20 --retry-connrefused --retry-delay 1 http://127.0.0.1:6061/jsontrace > "$folder/go_run.json"
