# 1,024 spans of the greatest length: three times as many have more than 64 bits together.
{
    printf '['
    for n in $(seq 1023); do printf '{"ph":"X","name":"a","ts":0,"dur":9007199254740991,"pid":1,"tid":1},'; done
    printf '{"ph":"X","name":"a","ts":0,"dur":9007199254740991,"pid":1,"tid":1}]'
} > "$1/a.json"
