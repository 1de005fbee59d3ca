cd "$1"
mkdir build
echo ']' > 'build/a.json'
