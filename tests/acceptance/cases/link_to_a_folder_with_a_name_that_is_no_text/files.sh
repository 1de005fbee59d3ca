cd "$1"
mkdir -p d e
echo ']' > 'd/a.json'
echo "]" > "e/$(printf '\377').json"
ln -s ../e d/e
