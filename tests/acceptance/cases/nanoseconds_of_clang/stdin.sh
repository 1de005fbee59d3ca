cat "$(dirname "$0")/../../../../examples/traces/clang.json"
