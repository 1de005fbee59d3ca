examples="$(dirname "$0")/../../../../examples"
python3 "$examples/convert_trace.py" --whole < "$examples/traces/go_build.json" 2> /dev/null
