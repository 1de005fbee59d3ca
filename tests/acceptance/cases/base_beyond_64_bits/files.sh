# 2,100 spans that are about as long as one can be, and one.
span='{"ph":"X","name":"a","ts":-9000000000000000,"dur":9000000000000000,"pid":1,"tid":1}'
{ printf '[%s' "$span"; for _ in $(seq 2099); do printf ',%s' "$span"; done; printf ']'; } > "$1/before.json"
printf '[%s]' "$span" > "$1/after.json"
