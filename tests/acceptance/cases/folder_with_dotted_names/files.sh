cd "$1"
mkdir -p d/.e/f d/c/.g d/c/..h
echo ']' > 'd/.a.json'
echo ']' > 'd/.json'
echo ']' > 'd/..json'
echo ']' > 'd/.e/b.json'
echo ']' > 'd/.e/f/b.json'
echo ']' > 'd/c/.k.json'
echo ']' > 'd/c/.g/b.json'
echo ']' > 'd/c/..h/b.json'
echo ']' > 'd/c/.json'
echo ']' > 'd/i.j.json'
echo ']' > 'd/c/l..json'
