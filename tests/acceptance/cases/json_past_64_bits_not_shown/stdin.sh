# The long spans add up to more than 2^64, and are not shown.
{ printf '[{"ph":"X","name":"short","ts":0,"dur":1}'; for _ in $(seq 2050); do
    printf ',{"ph":"X","name":"long","ts":0,"dur":9007199254740991}'
done; echo ']'; }
