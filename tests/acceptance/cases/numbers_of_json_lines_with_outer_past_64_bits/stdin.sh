# Spans as long as one can be, each on a thread of its own, of which the lengths add up to 2^64.
{ printf '[{"ph":"X","name":"a","ts":0,"dur":2048}'; for thread in $(seq 2048); do
    printf ',{"ph":"X","name":"a","ts":0,"dur":9007199254740991,"tid":%d}' "$thread"
done; echo ']'; }
