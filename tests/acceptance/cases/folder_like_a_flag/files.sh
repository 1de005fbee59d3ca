cd "$1"
mkdir -- --json
echo ']' > ./--json/a.json
