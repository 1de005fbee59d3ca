cd "$1"
mkdir d
echo ']' > 'a.json'
