cd "$1"
mkdir z d
echo ']' > 'd/a.json'
echo "]" > "d/$(printf '\377')"
