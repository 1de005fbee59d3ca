cd "$1"
mkdir -p d e
echo ']' > 'd/a.json'
echo ']' > 'e/a.json'
echo "]" > "d/$(printf '\377')"
