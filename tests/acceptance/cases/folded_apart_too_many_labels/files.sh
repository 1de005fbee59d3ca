# In each of two files spans of which each begins a microsecond after the one before, and that end together: 1 + 2 + .. + 8,192 labels,
# and in both together more than 67,108,864. One more file is cut off.
for name in one two; do
    awk -v name="$name" 'BEGIN {
        printf "[{\"ph\":\"M\",\"name\":\"thread_name\",\"pid\":1,\"tid\":1,\"args\":{\"name\":\"%s\"}}", name
        for (at = 0; at < 8192; at++)
            printf ",{\"ph\":\"X\",\"name\":\"a\",\"ts\":%d,\"dur\":%d,\"pid\":1,\"tid\":1}", at, 8192 - at
        print "]"
    }' > "$1/$name.json"
done
printf '[{"ph":"B","na' > "$1/cut.json"
