cd "$1"
mkdir parts
echo ']' > 'parts/a.jsonl'
