# The text of a wrong command line isn't fixed.
grep -q . && echo 'a text'
