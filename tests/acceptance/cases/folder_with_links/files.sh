cd "$1"
mkdir -p d/e other
echo ']' > d/e/a.json
echo ']' > other/b.json
ln -s e/a.json d/link.json
ln -s ../../other/b.json d/e/outside.json
ln -s e d/f
ln -s ../other d/other.json
ln -s gone.json d/gone.json
ln -s . d/e/self
ln -s .. d/e/above.json
