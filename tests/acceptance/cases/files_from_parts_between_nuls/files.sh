cat > "$1/x.json" << 'EOF'
[{"ph":"X","name":"p","ts":0,"dur":10,"pid":1,"tid":1}]
EOF
cat > "$1/a
b.json" << 'EOF'
[{"ph":"X","name":"q","ts":0,"dur":3,"pid":2,"tid":1}]
EOF
printf 'x.json\0\0a\nb.json\0' > "$1/list"
