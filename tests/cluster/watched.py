"""The program with a watch: it notes the names of files that are read apart, may read one of them slowly, and may hold the first task
that comes until it is let go."""
import os

SCRIPT = """#!/bin/sh
case " $* " in
*" --apart "*" --files-from - "*) ;;
*) exec '{program}' "$@" ;;
esac
cd '{control}' 2>/dev/null || exit 9
names=$(mktemp -p .)
tr '\\0' '\\n' > "$names"
cat "$names" >> read
if mv hold held 2>/dev/null; then
    echo "$PPID $$" > holder.tmp
    mv holder.tmp holder
    while [ -e held ]; do sleep 0.1; done
fi
if [ -e slow ] && grep -qxF -f slow "$names"; then sleep 2; fi
cd "$OLDPWD" || exit 9
tr '\\n' '\\0' < '{control}'/"$names" | '{program}' "$@"
"""


class Watched:
    """The program in a folder of its own, with what it noted and what it is given beside it."""

    def __init__(self, program, folder):
        self.folder = folder
        os.makedirs(folder)
        path = os.path.join(folder, "tracebook")
        with open(path, "w", encoding="utf-8") as script:
            script.write(SCRIPT.format(program=program, control=folder))
        os.chmod(path, 0o755)
        self.note("read", "")

    def path(self, name):
        return os.path.join(self.folder, name)

    def note(self, name, text):
        with open(self.path(name), "w", encoding="utf-8") as file:
            file.write(text)

    def taken(self, name):
        """What stands in a note, which is then empty."""
        with open(self.path(name), encoding="utf-8") as file:
            text = file.read()
        self.note(name, "")
        return text

    def read(self):
        """The names of the files that were read since this was asked."""
        return sorted(self.taken("read").split())

    def hold(self):
        self.note("hold", "")

    def holds(self):
        return os.path.exists(self.path("holder"))

    def holder(self):
        """The worker whose task is held."""
        return self.held_processes()[0]

    def held_program(self):
        return self.held_processes()[1]

    def held_processes(self):
        with open(self.path("holder"), encoding="utf-8") as file:
            return [int(process) for process in file.read().split()]

    def let_go(self):
        os.remove(self.path("holder"))
        os.remove(self.path("held"))
