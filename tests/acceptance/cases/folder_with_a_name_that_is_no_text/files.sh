cd "$1"
mkdir -p d/a
echo ']' > 'd/a.json'
echo ']' > 'd/a/b.json'
echo "]" > "d/$(printf '\377').json"
