# An element that is refused, and spans as long as one can be, of which the lengths add up to more than 2^64.
{ printf '[5'; for _ in $(seq 2050); do
    printf ',{"ph":"X","name":"long","ts":0,"dur":9007199254740991}'
done; echo ']'; }
