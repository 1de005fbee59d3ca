cd "$1"
mkdir -p .build/.no
echo ']' > '.build/a.json'
echo ']' > '.build/.no/b.json'
