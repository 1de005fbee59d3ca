cd "$1"
mkdir -p d e
echo ']' > 'e/a.json'
echo "]" > "e/$(printf '\377')"
