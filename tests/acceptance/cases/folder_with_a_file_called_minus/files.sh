cd "$1"
mkdir ./-
echo ']' > ./-/a.json
