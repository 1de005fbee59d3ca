cd "$1"
mkdir build.json
echo ']' > 'build.json/a.json'
