cd "$1"
mkdir d
echo ']' > 'd/b.json'
mkfifo d/a.json
