# Spans of which each begins a microsecond after the one before, and that end together: 1 + 2 + .. + 11,585 names.
awk 'BEGIN {
    printf "["
    for (at = 0; at < 11585; at++)
        printf "%s{\"ph\":\"X\",\"name\":\"a\",\"ts\":%d,\"dur\":%d,\"pid\":1,\"tid\":1}", at ? "," : "", at, 11585 - at
    print "]"
}'
