# The totals are, of each thread, those of
# jq '[.traceEvents[] | select(.name == "tree") | (.ts * 1000 | round) * (if .ph == "E" then 1 else -1 end)] | add'
# and a name's self time is its total less those of what it calls: of main 877909, 7065, and 14281 + 233437 in the outer tree.
cat "$(dirname "$0")/../../../../examples/traces/uftrace.json"
