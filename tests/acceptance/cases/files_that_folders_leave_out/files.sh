cd "$1"
mkdir d
echo ']' > 'd/.a.json'
echo ']' > 'd/b'
ln -s b d/link.json
