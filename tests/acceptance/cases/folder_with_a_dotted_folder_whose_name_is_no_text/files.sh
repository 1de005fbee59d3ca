cd "$1"
mkdir -p "d/.$(printf '\377')"
echo ']' > 'd/a.json'
