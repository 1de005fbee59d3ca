# An array of 4,194,304 numbers.
printf '['
yes '1,' | head -n 4194303 | tr -d '\n'
printf '1]'
