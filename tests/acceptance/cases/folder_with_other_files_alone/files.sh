cd "$1"
mkdir -p d/.b d/c
echo ']' > 'd/a.txt'
echo ']' > 'd/.b/a.json'
echo ']' > 'd/c/a.jsonl'
echo ']' > 'd/c/.a.json'
