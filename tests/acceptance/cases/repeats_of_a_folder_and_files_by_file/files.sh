cd "$1"
mkdir old new
echo '[{"ph":"X","name":"p","ts":0,"dur":5}]' > 'old/1.json'
echo '[{"ph":"X","name":"p","ts":0,"dur":9}]' > 'new/1.json'
