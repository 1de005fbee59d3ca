cd "$1"
mkdir d
echo d > list
