# A file without an end, whose name has a quote, a backslash, a tab, an escape character and a letter past ASCII.
printf '[{"ph":"B","na' > "$1/$(printf 'a"b\\c\td\033\303\251.json')"
