"""The program that the scripts beside this try: their first argument, or ./tracebook."""
import os
import sys

ROOT = os.path.normpath(os.path.join(os.path.dirname(os.path.abspath(__file__)), ".."))


def built_program():
    program = os.path.abspath(sys.argv[1] if len(sys.argv) > 1 else os.path.join(ROOT, "tracebook"))
    if not os.access(program, os.X_OK):
        sys.exit(f"{os.path.basename(sys.argv[0])}: there is no program {program}: `make` builds ./tracebook")
    return program
