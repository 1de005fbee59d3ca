cd "$1"
mkdir d
echo ']' > 'd/a.json'
