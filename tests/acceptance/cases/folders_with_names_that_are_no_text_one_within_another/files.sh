cd "$1"
mkdir -p d/a/b
echo ']' > 'd/a.json'
echo "]" > "d/a/$(printf '\377')"
echo "]" > "d/a/b/$(printf '\377')"
