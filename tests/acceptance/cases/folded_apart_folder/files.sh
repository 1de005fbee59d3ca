cd "$1"
mkdir -p d/b
echo '[{"ph":"X","name":"p","ts":0,"dur":5}]' > 'd/a.json'
echo '[{"ph":"X","name":"q","ts":10,"dur":3},{"ph":"X","name":"p","ts":0,"dur":7}]' > 'd/b/c.json'
echo '[{"ph":"X","name":"left out","ts":0,"dur":9}]' | tee 'd/.a.json' > 'd/a.txt'
