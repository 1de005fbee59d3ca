cd "$1"
mkdir -p parts/sub
echo '{"tracebook":1,"columns":["name"],"rows":1,"runs":1,"files":1,"unread":0,"events":2,"refused":0,"skipped":0,"queries":0,"seals":0}
{"name":"p","count":2,"total":9,"self":8}' > 'parts/a.jsonl'
echo '{"tracebook":1,"columns":["name"],"rows":1,"runs":1,"files":1,"unread":0,"events":1,"refused":0,"skipped":0,"queries":0,"seals":0}
{"name":"q","count":1,"total":4,"self":4}' > 'parts/sub/b.jsonl'
echo ']' > 'parts/c.json'
echo ']' > 'parts/.d.jsonl'
echo ']' > 'parts/e.jsonl.tmp'
echo ']' > 'parts/f.faults'
echo ']' > 'g.jsonl'
ln -s ../g.jsonl parts/g.jsonl
