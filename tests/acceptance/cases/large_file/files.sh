# 100,000 spans of a microsecond each, with arguments that make the file longer than 33 MiB.
long=$(printf '%0300d' 0)
{
    printf '['
    seq 1 99999 | sed "s/.*/{\"ph\":\"X\",\"name\":\"a\",\"ts\":&,\"dur\":1,\"pid\":1,\"tid\":2,\"args\":{\"text\":\"$long\"}},/"
    printf '{"ph":"X","name":"a","ts":100000,"dur":1,"pid":1,"tid":2}]'
} > "$1/large.json"
