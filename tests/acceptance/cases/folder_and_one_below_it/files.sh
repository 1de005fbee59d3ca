cd "$1"
mkdir -p z/a
echo ']' > 'z/a/1.json'
echo ']' > 'z/2.json'
