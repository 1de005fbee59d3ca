# Spans as long as one can be, of which the lengths add up to more than 2^64, and a short one in the same time.
{ printf '[{"ph":"X","name":"a","ts":0,"dur":2048}'; for _ in $(seq 2049); do
    printf ',{"ph":"X","name":"a","ts":0,"dur":9007199254740991}'
done; echo ']'; }
