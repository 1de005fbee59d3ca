# The rest of the text of a wrong command line is not fixed.
grep -o -e 'total, closed, open, points' | head -n 1
