cd "$1"
mkdir -p .cache/build
echo ']' > '.cache/build/a.json'
