cat "$(dirname "$0")/../../../../examples/traces/node.json"
