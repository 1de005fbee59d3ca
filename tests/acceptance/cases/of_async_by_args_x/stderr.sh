# The rest of the text of a wrong command line is not fixed.
grep -o -e 'cat, scope, id, name' | head -n 1
