cat "$(dirname "$0")/../../../../examples/traces/go_build.json"
