cd "$1"
mkdir -p d/b
echo '[{"ph":"X","name":"p","ts":0,"dur":5},{"ph":"X","name":"q","ts":0.5,"dur":1},{"ph":"E","ts":9}]' > 'd/a.json'
echo ']' > 'd/b/a.json'
echo ']' > 'd/c.json'
echo '5' > 'd/b/d.json'
echo '[{"ph":"X","name":"p","ts":0,"dur":5},{"ph":"X","name":"q","ts":0.5,"dur":1},{"ph":"E","ts":9}]' > 'd/b/e.json'
