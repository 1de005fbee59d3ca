# Spans as long as one can be, and a short one, of which the lengths add up to 2^64.
{ printf '[{"ph":"X","name":"short","ts":0,"dur":2048}'; for _ in $(seq 2048); do
    printf ',{"ph":"X","name":"long","ts":0,"dur":9007199254740991}'
done; echo ']'; } > "$1/long.json"
echo '[]' > "$1/none.json"
