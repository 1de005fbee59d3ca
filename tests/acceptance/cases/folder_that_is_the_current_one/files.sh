cd "$1"
mkdir a
echo ']' > 'b.json'
echo ']' > 'a/c.json'
