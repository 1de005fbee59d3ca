printf 'x.json\n\377.json\n' > "$1/list"
