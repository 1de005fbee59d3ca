cd "$1"
mkdir -p d/a
echo ']' > 'd/a.json'
echo "]" > "d/a/.$(printf '\377')"
