# The rest of the text of a wrong command line isn't fixed.
grep -o 'standard input can be read only once' | head -n 1
