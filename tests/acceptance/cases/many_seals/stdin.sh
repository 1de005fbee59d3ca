# 40,000 spans that stay open, each on a thread of its own.
printf '['
seq 40000 | sed 's/.*/{"ph":"B","ts":1,"tid":&},/'
