head -n 12 "$(dirname "$0")/../../../../examples/page_load.json"
