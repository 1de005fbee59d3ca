cd "$1"
mkdir -p d/b d/a/z d/a-b d/B
echo ']' > 'd/a.json'
echo ']' > 'd/B/a.json'
echo "]" > "d/b/$(printf '\377')"
echo "]" > "d/a/z/$(printf '\377')"
echo "]" > "d/a-b/$(printf '\377')"
