# An array of 4,194,305 numbers.
printf '['
yes '1,' | head -n 4194304 | tr -d '\n'
printf '1]'
