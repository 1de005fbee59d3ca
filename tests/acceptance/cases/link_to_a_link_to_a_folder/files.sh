cd "$1"
mkdir d
echo '[{"ph":"X","name":"p","ts":0,"dur":5}]' > 'd/a.json'
ln -s d link
ln -s link link.json
