cd "$1"
mkdir -p d/a d/b/c.json
