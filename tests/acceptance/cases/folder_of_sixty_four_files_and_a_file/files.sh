cd "$1"
mkdir d
for n in $(seq 64); do echo '[]' > d/$n.json; done
