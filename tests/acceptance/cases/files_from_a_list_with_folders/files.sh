cd "$1"
mkdir z a
echo ']' > 'z/2.json'
echo ']' > 'z/1.json'
echo ']' > 'a/4.json'
echo ']' > 'a/3.json'
echo ']' > 'c.json'
echo ']' > 'b.json'
printf 'b.json\n\na/\nz\n' > list
