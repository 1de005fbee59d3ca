# A file with an element that is refused, whose name has a quote, a backslash, a tab, an escape character and a letter past ASCII.
printf '[5]' > "$1/$(printf 'a"b\\c\td\033\303\251.json')"
