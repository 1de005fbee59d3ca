cd "$1"
mkdir parts
echo '{"tracebook":1,"columns":["file","name"],"rows":1,"runs":1,"files":1,"unread":0,"events":1,"refused":0,"skipped":0,"queries":0,"seals":0}
{"file":"x.json","name":"p","count":1,"total":5,"self":5}' > 'parts/a.jsonl'
