cd "$1"
mkdir -p d/a/b
echo ']' > 'd/a.json'
echo "]" > "d/a/b/c$(printf '\377').json"
