cd "$1"
mkdir d
