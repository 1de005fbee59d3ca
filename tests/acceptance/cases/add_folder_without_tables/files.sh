cd "$1"
mkdir traces
echo ']' > 'traces/a.json'
