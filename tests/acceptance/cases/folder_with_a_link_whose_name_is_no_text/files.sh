cd "$1"
mkdir d
ln -s a.json "d/$(printf '\377')"
echo ']' > 'd/a.json'
