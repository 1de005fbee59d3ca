cd "$1"
mkdir -p old/b new
echo '[{"ph":"X","name":"p","ts":0,"dur":5}]' > 'old/1.json'
echo '[{"ph":"X","name":"p","ts":0,"dur":6}]' > 'old/b/2.json'
echo '[{"ph":"X","name":"p","ts":0,"dur":9}]' > 'new/1.json'
echo '[{"ph":"X","name":"p","ts":0,"dur":8}]' > 'new/2.json'
echo '[{"ph":"X","name":"p","ts":0,"dur":7}]' > 'new/3.json'
