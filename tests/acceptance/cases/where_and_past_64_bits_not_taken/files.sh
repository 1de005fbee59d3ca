# 2,050 spans of the greatest length: their total isn't below 2^64, but they don't meet the condition.
{
    printf '[{"ph":"X","name":"near","ts":0,"dur":1,"pid":1,"tid":1}'
    for place in $(seq 2050); do printf ',{"ph":"X","name":"far","ts":0,"dur":9007199254740991,"pid":1,"tid":2}'; done
    printf ']'
} > "$1/far.json"
