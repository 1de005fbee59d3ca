cd "$1"
mkdir z d a
echo ']' > 'z/a.json'
