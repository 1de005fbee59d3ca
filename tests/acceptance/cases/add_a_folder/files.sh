cat > "$1/t.jsonl" <<'EOF'
{"tracebook":1,"columns":["name","args.detail"],"rows":3,"runs":2,"files":2,"unread":0,"events":3,"refused":0,"skipped":0,"queries":0,"seals":0}
{"name":"p","args.detail":"d","count":1,"total":10,"self":7}
{"name":"p","args.detail":"e","count":1,"total":4,"self":4}
{"name":"q","count":1,"total":3,"self":3}
EOF
mkdir "$1/folder"
