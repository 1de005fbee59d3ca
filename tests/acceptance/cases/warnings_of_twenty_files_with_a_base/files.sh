# Files of one span each, with as many elements that are refused as their number says.
for n in $(seq 20); do
    { printf '['; yes '5,' | head -n "$n" | tr -d '\n'; printf '{"ph":"X","name":"a","ts":0,"dur":1,"pid":%d,"tid":1}]' "$n"; } > "$1/$n.json"
done
