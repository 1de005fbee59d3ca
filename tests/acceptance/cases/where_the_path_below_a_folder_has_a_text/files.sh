mkdir -p "$1/traces/sub"
printf '%s' '[{"ph":"X","name":"p","ts":0,"dur":10,"pid":1,"tid":1}]' > "$1/traces/a.json"
printf '%s' '[{"ph":"X","name":"p","ts":0,"dur":4,"pid":1,"tid":1}]' > "$1/traces/sub/a.json"
printf '%s' '[{"ph":"X","name":"p","ts":0,"dur":1,"pid":1,"tid":1}]' > "$1/traces/sub/b.json"
