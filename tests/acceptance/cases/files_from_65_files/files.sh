for n in $(seq 65); do echo '[]' > "$1/$n.json"; echo "$n.json" >> "$1/list"; done
