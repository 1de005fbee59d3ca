cd "$1"
mkdir -p old/b/old
echo '[{"ph":"X","name":"p","ts":0,"dur":5}]' > 'old/a.json'
echo '[{"ph":"X","name":"q","ts":10,"dur":3}]' > 'old/b/old/c.json'
echo '[{"ph":"X","name":"q","ts":10,"dur":3}]' > 'old/b/d.json'
