cd "$1"
mkdir -p d/e
echo ']' > 'd/a.json'
echo ']' > 'd/e/b.json'
ln -s d link
