cd "$1"
mkdir -p build/c
echo '[{"ph":"X","name":"p","ts":0,"dur":5}]' > 'build/a.json'
echo '[{"ph":"X","name":"q","ts":10,"dur":3}]' > 'build/c/b.json'
