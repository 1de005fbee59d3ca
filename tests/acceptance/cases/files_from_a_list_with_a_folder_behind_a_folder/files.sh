cd "$1"
mkdir -p old/b new/b
echo '[{"ph":"X","name":"p","ts":0,"dur":5}]' > 'old/a.json'
echo '[{"ph":"X","name":"q","ts":10,"dur":3}]' > 'old/b/c.json'
echo '[{"ph":"X","name":"p","ts":0,"dur":7}]' > 'new/a.json'
echo '[{"ph":"X","name":"q","ts":10,"dur":3}]' > 'new/b/c.json'
echo new > list
