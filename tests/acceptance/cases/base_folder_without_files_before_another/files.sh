cd "$1"
mkdir a z
