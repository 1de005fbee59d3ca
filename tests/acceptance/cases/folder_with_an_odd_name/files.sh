cd "$1"
mkdir 'a "b"\' é
echo ']' > 'a "b"\/c	d.json'
echo ']' > 'é/ü.json'
