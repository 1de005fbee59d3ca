# Spans as long as one can be, one within another, of which the lengths add up to more than 2^64.
{ printf '[{"ph":"X","name":"a","ts":0,"dur":2048}'; for _ in $(seq 2048); do
    printf ',{"ph":"X","name":"a","ts":0,"dur":9007199254740991}'
done; echo ']'; }
