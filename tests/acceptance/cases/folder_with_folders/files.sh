cd "$1"
mkdir -p build/b/c/d build/e.json build/none
echo '[{"ph":"X","name":"p","ts":0,"dur":5}]' > 'build/b/c/d/f.json'
echo '[{"ph":"X","name":"q","ts":10,"dur":3}]' > 'build/e.json/g.json'
