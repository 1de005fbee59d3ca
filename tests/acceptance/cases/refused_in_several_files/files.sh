cd "$1"
printf '[{"ph":"X","name":"a","ts":0,"dur":1},{"ph":"X","ts":1},7,{"ph":"X","ts":2}]' > 'bad "one".json'
printf '[{"ph":"X","name":"b","ts":5,"dur":1}]' > whole.json
printf '{"traceEvents":[{"ph":"X",' > cut.json
