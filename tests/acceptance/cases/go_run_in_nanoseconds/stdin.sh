# Its complete events lie apart, and their sums are those of
# jq '[.traceEvents[] | select(.name == "G23 main.main.func1") | .dur * 1000 | round] | add'
cat "$(dirname "$0")/../../../../examples/traces/go_run.json"
