for n in $(seq 0 99); do echo '[{"ph":"X","name":"a","ts":0,"dur":1,"pid":1,"tid":1}]' > "$1/f$n.json"; done
