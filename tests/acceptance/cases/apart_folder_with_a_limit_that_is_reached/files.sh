cd "$1"
mkdir d
echo ']' > 'd/a.json'
echo '[{"ph":"X","name":"p","ts":0,"dur":5},{"ph":"X","name":"q","ts":0,"dur":5}]' > 'd/b.json'
