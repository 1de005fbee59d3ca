cd "$1"
mkdir -p build/c
echo ']' > 'build/a.json'
echo ']' > 'build/c/b.json'
