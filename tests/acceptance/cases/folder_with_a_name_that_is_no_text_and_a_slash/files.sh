cd "$1"
mkdir -p d
echo ']' > 'd/a.json'
echo "]" > "d/$(printf '\377').json"
