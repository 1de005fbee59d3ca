# The rest of the text of a wrong command line is not fixed.
grep -o 'pid, tid, process, thread, name, args.KEY' | head -n 1
