# The rest of the text of a wrong command line is not fixed.
grep -o "goes with .--top <N>." | head -n 1
