cd "$1"
mkdir d
echo ']' > 'a.json'
ln a.json d/b.json
