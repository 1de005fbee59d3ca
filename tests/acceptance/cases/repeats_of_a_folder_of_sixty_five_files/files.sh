cd "$1"
mkdir one
for n in $(seq 1); do echo '[]' > one/$n.json; done
mkdir many
for n in $(seq 65); do echo '[]' > many/$n.json; done
