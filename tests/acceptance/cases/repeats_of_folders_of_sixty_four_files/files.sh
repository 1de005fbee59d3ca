cd "$1"
mkdir one
for n in $(seq 64); do echo '[]' > one/$n.json; done
mkdir many
for n in $(seq 64); do echo '[]' > many/$n.json; done
