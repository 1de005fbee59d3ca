cd "$1"
mkdir d
for n in $(seq 65); do echo '[]' > d/$n.json; done
