# A pipe has no size, and its writer waits for a reader.
mkfifo "$1/trace.json"
(printf '[{"ph":"X","name":"a","ts":1,"dur":10,"pid":1,"tid":2}]' > "$1/trace.json") > /dev/null 2>&1 &
