cd "$1"
mkdir d
echo '[{"ph":"b","cat":"c","name":"n","id":1,"ts":0},{"ph":"e","cat":"c","name":"n","id":1,"ts":4}]' > 'd/a.json'
