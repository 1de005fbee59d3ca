cd "$1"
mkdir d
echo ']' > 'a.json'
ln -s ../a.json d/a.json
ln -s .. d/b
