# The rest of the text of a wrong command line is not fixed.
sed -n 's/^error: //p'
