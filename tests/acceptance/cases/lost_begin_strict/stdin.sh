# Go's build trace without the begin of one span, whose end is there.
examples="$(dirname "$0")/../../../../examples"
python3 "$examples/convert_trace.py" --whole < "$examples/traces/go_build.json" 2> /dev/null |
    sed '/{"name":"load.loadPackageData runtime","ph":"B"/d'
