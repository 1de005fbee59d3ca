"""Words of the command for Dask: what is said of them, and which files they name, must be what the program says with --apart."""
import json
import os
import re
import shutil
import subprocess
import sys
from concurrent.futures import ThreadPoolExecutor

from bench import ENGINE, fail
from loopback import PATIENCE

# How many commands run side by side where one has nothing to do with another: most of their time is Dask's own start.
AT_A_TIME = 4
# Files with the name of what ends options, of an option, and of standard input.
ODD_NAMES = ["--", "--json", "./-"]
# Words of which the program says the same with --apart.
SAME = {
    "an empty name": ["--json", "3.json", "", "7.json"],
    "an empty name alone": ["--json", ""],
    "an empty name before a file that is no trace": ["--json", "", "cut.json"],
    "an empty name behind a file that is no trace": ["--json", "cut.json", ""],
    "an empty name of a base": ["--base", "", "3.json"],
    "names like options": ["--json", "--", "3.json", *ODD_NAMES],
    "a name that ends options": ["--json", "--", "--"],
    "options behind files": ["3.json", "--top=3", "7.json", "--group-by=name"],
    "two texts to be shown": ["--only", "a", "--only=S", "--skip", "9", "--top", "3", "--group-by", "name,args.detail", "3.json"],
    "two conditions": ["--where", "name~a", "--where=args.detail!=", "--json", "--group-by", "name", "3.json", "7.json"],
    "a condition without a text": ["--where", "pid!=0", "3.json", "cut.json"],
    "a condition on a file": ["--where", "file!=3.json", "--top", "3", "3.json", "7.json"],
    "a condition on parents": ["--merge-templates", "--group-by", "parent.name,name", "--where=parent.args.detail!~9", "3.json"],
    "conditions on async spans": ["--of", "async", "--where", "id!~1", "--json", "--base", "4.json", "3.json"],
    "merged templates": ["--merge-templates", "--json", "3.json", "7.json"],
    "a column of parents that no span has": ["--json", "--group-by", "parent.args.none,parent.name,args.none", "3.json", "cut.json"],
    "no condition": ["--json", "--where", "name", "3.json"],
    "a condition that is missing": ["3.json", "--json", "--where"],
    "a condition on an unknown column": ["--json", "--where", "size=1", "3.json"],
    "merged templates twice": ["--merge-templates", "--json", "--merge-templates", "3.json"],
    "how files are read": ["--limit", "90", "--nanoseconds", "--seal", "--strict", "--json", "3.json", "7.json"],
    "large files": ["--large", "--json", "3.json", "7.json", "cut.json"],
    "a limit that is reached": ["--json", "--limit=2", "3.json", "7.json"],
    "another sum": ["--top", "3", "--by", "total", "3.json", "7.json"],
    "numbers": ["--numbers", "longest,outer,count", "--group-by", "name", "3.json", "7.json"],
    "numbers as they are usual in tables": ["--numbers=count,total,self", "--group-by", "name", "3.json", "7.json"],
    "numbers as they are usual in texts": ["--json", "--numbers", "self,total,count", "--base", "4.json", "3.json", "7.json"],
    "numbers as JSON Lines": ["--json", "--numbers", "outer,self", "3.json", "cut.json"],
    "numbers and one to go by": ["--numbers", "count,longest", "--by", "longest", "--group-by", "args.detail", "3.json", "7.json"],
    "numbers of async spans": ["--of", "async", "--numbers", "points,longest", "--base", "4.json", "3.json"],
    "a number to go by": ["--by", "outer", "--group-by", "name", "3.json", "7.json"],
    "a number to go by of a comparison": ["--by", "longest", "--merge-templates", "--base", "4.json", "3.json", "7.json"],
    "a number of async spans to go by": ["--of", "async", "--by", "longest", "--base", "4.json", "3.json"],
    "numbers that there are not": ["--json", "--numbers", "longest,size", "3.json"],
    "numbers without the one to go by": ["--numbers", "longest", "--by", "self", "3.json"],
    "numbers that are missing": ["3.json", "--json", "--numbers"],
    "an empty list of numbers": ["--json", "--numbers=", "3.json"],
    "async spans": ["--of", "async", "--json", "--base", "4.json", "3.json"],
    "columns that no span has": ["--json", "--only", "zz", "--group-by", "args.none,name,args.detail,args.a\"\\é", "3.json", "cut.json"],
    "a column beside files that are no traces": ["--top", "3", "--group-by", "args.none,name", "--base", "cut.json", "./-", "cut.json"],
    "a column without rows": ["--json", "--group-by", "args.none", "cut.json"],
    "a column that the base has": ["--top", "3", "--group-by", "args.detail,name", "--base", "3.json", "--", "--json"],
    "--apart": ["--apart", "--json", "3.json"],
    "a missing list": ["--json", "--files-from", "none", "3.json"],
    "a list without a name": ["--json", "--files-from="],
    "no list": ["--json", "--files-from"],
    "two lists": ["--json", "--files-from", "a", "--files-from", "b"],
    "a list that is empty": ["--json", "--files-from", os.devnull],
    "a number twice": ["--top", "3", "--top", "4", "3.json"],
    "a switch twice": ["--json", "--seal", "--seal", "3.json"],
    "--apart twice": ["--apart", "--json", "--apart", "3.json"],
    "a number that is missing": ["3.json", "--top"],
    "a number below 1": ["--top", "-5", "3.json"],
    "a number above 32 bits": ["--top", "4294967296", "3.json"],
    "no text to be shown": ["--json", "--only", "--seal", "3.json"],
    "an empty text": ["--json", "--only=", "3.json"],
    "a value of a switch": ["--json=3", "3.json"],
    "an unknown option": ["--sael", "--json", "3.json"],
    "an unknown letter": ["-x", "--json", "3.json"],
    "an unknown column": ["--json", "--group-by", "size", "3.json"],
    "an empty list of columns": ["--json", "--group-by=", "3.json"],
    "no table": ["3.json"],
    "folded stacks": ["--folded", "3.json"],
    "folded stacks by argument": ["--folded", "--merge-templates", "--group-by", "name,args.detail", "3.json"],
    "folded stacks of a file that is no trace": ["--folded", "cut.json"],
    "folded stacks behind a file that is missing": ["--folded", "none.json", "3.json"],
    "folded stacks with a limit that is reached": ["--folded", "--limit=2", "3.json"],
    "folded stacks by file": ["--folded", "--group-by", "file", "3.json"],
    "folded stacks under a condition": ["--folded", "--where", "name=a", "3.json"],
    "folded stacks of a base": ["--folded", "--base", "3.json", "7.json"],
    "folded stacks as JSON Lines": ["--folded", "--json", "3.json"],
    "a value of folded stacks": ["--folded=3", "3.json"],
    "refused elements": ["--refused", "3.json"],
    "tables": ["--add", "--json", "3.json"],
    "repeated runs": ["--repeats", "--base", "3.json", "7.json"],
    "the version": ["--version"],
    "help behind an unknown option": ["--sael", "--help"],
    "a word that is not text": ["--json", b"\xff"],
}
# The same of folders, most of which have traces with these names, and others that don't count; one is a link, and the last has names that
# are no text.
BELOW = [".k.json", ".l/m.json", "b.json", "sub/b.json", "sub/a.json", "sub-.json", "sub.json/c.json", "d.jsonl", "Z.json"]
ODD = 'odd "é"'
SPOILED = ".spoiled"
OF_TREES = {
    "a folder": ["--json", "tree"],
    "a folder by file": ["--group-by", "file,name", "--top", "50", "tree"],
    "a folder with a slash by file": ["--json", "--group-by", "name,file", "--only", "sub", "tree/"],
    "a folder with slashes by file": ["--json", "--group-by", "file", "--skip", "tree", "tree//"],
    "a folder with an odd name by file": ["--json", "--group-by", "args.\"file\",file,args.\"file\":", ODD],
    "the folder that is the current one": ["--json", "--group-by", "file,args.detail", "."],
    "a folder where a file is meant": ["--json", "--where", "file=sub/a.json", "--group-by", "name", "tree"],
    "files and names of a folder": ["--where", "file~/", "--where=name=a", "--where", "file!~tree", "--group-by", "name,file", "tree/"],
    "a folder where another file is meant by file": ["--json", "--where", "file!=b.json", "--group-by", "file", "tree"],
    "folders where a file is meant": ["--json", "--where", "file~tree/sub", "--group-by", "name", "tree", ODD],
    "a folder and its base where a file is meant": ["--where", "file=a.json", "--base", "tree/sub", "tree"],
    "a folder of async spans where a file is meant": ["--of", "async", "--where", "file!=b.json", "--json", "tree"],
    "a folder where a file has no argument": ["--where", "file=b.json", "--group-by", "args.none,args.detail", "tree"],
    "folders by file": ["--json", "--group-by", "file", "tree", ODD],
    "a folder twice by file": ["--json", "--group-by", "file", "tree", "tree"],
    "a folder among files by file": ["--json", "--group-by", "file", "3.json", "tree", "cut.json", "tree/sub"],
    "folders of both sides by file": ["--group-by", "file,name", "--base", "tree/", ODD],
    "a folder of the base by file": ["--json", "--group-by", "file", "--base", "tree/sub", "tree", "tree/sub"],
    "folders of async spans by file": ["--of", "async", "--group-by", "file,name", "--base", "tree", "tree/sub"],
    "a folder in a list": ["--json", "--group-by", "file", "--files-from", "tree/list"],
    "a folder behind a list": ["--json", "--group-by", "file", "--files-from", "tree/list", ODD],
    "a folder as a list": ["--json", "--files-from", "tree"],
    "a folder without a trace": ["--json", "3.json", "none"],
    "a folder without a trace behind a missing file": ["--json", "none.json", "none/"],
    "a folder without a trace in a list that is missing": ["--json", "--files-from", "none.list", "none"],
    "a base without a trace": ["--base", "none", SPOILED],
    "a name that is no text": ["--json", "none.json", SPOILED],
    "a name that is no text beside a base": ["--base", "none.json", f"{SPOILED}/"],
    "folders with two faults": ["--json", SPOILED, "none"],
}
# The same of words that name standard input, which has what follows.
GIVEN = '[{"ph":"X","name":"given","ts":1,"dur":2},5]'
OF_INPUT = {
    "standard input": (["--json", "-"], GIVEN),
    "stacks of standard input": (["--folded", "-"], GIVEN),
    "standard input by file": (["--json", "--group-by", "file", "3.json", "-", "cut.json"], GIVEN),
    "standard input without a file": (["--top", "3"], GIVEN),
    "standard input beside a base": (["--group-by", "file,name", "--base", "3.json"], GIVEN),
    "standard input as the base": (["--group-by", "file,name", "--base=-", "3.json"], GIVEN),
    "standard input that is no trace": (["--json", "3.json", "--", "-", "cut.json"], "5"),
    "standard input that is too large": (["--json", "-"], " " * (64 << 20) + "5"),
    "standard input of which a file is missing": (["--json", "none.json", "-"], GIVEN),
    "standard input with a limit": (["--json", "--limit=1", "-"], GIVEN.replace("5", GIVEN[1:-3])),
    "standard input twice": (["--json", "-", "3.json", "-"], GIVEN),
    "standard input as base and file": (["--base", "-", "-"], GIVEN),
    "standard input as the base alone": (["--base", "-"], GIVEN),
    "standard input as list and file": (["--json", "--files-from", "-", "-"], "3.json"),
    "standard input as list and base": (["--json", "--files-from=-", "--base=-"], "3.json"),
    "standard input twice, and no list": (["--json", "--files-from", "none", "-", "-"], GIVEN),
    "standard input in a list": (["--json", "--group-by", "file", "--files-from", "inputs"], GIVEN),
    "standard input before a list that has it": (["--json", "--files-from", "inputs", "-"], GIVEN),
    "standard input in a list that it is": (["--json", "--files-from", "-"], "3.json\n-\n"),
}
# Words of the command's own, and what is said of them.
OWN = {
    "--workers beside --scheduler": (["--scheduler", "a:1", "--workers", "2"], "'--workers <N>' cannot be used with '--scheduler"),
    "--workers twice": (["--workers", "2", "--workers=2"], "'--workers <N>' cannot be used multiple times"),
    "no number of workers": (["--workers"], "a value is required for '--workers <N>'"),
    "a word for a number of workers": (["--workers", "two"], "invalid value 'two' for '--workers <N>'"),
    "no workers": (["--workers=0"], "invalid value '0' for '--workers <N>'"),
    "an empty number of workers": (["--workers="], "invalid value '' for '--workers <N>'"),
    "no folder": (["--parts", "--json"], "a value is required for '--parts <FOLDER>'"),
    "--parts beside --folded": (["--parts", "parts", "--folded"], "'--parts <FOLDER>' cannot be used with '--folded'"),
    "--jobs": (["--jobs", "2"], "'--jobs' cannot be used with tracebook_dask"),
    "--page": (["--page"], "'--page' cannot be used with tracebook_dask"),
}
# Runs what follows without standard streams.
WITHOUT = {"standard error": '"$@" 2>&-', "standard output": '"$@" >&-', "output and error": '"$@" >&- 2>&-', "standard input": '"$@" <&-'}
STREAMED = ["3.json", "none.json"], ["3.json", "4.json"], ["--files-from", "-"], ["--version"]


def engine(*words):
    return [sys.executable, "-B", ENGINE, *words]


def expect_all_options(bench):
    """That each option of the program's help is among the words, so that a new one isn't forgotten."""
    known = set(re.findall(r"^ +(?:-\w, )?(--[a-z-]+)", bench.outcome([bench.program, "--help"])[1].decode(), re.MULTILINE))
    tried = [*SAME.values(), *OF_TREES.values(), *(words for words, _ in OWN.values())]
    options = {word.partition("=")[0] for words in tried for word in words if isinstance(word, str)}
    if "--top" not in known or known - options:
        fail(f"no words have {sorted(known - options)}")


def put(bench, name, text):
    path = os.path.join(os.fsencode(bench.folder), os.fsencode(name))
    os.makedirs(os.path.dirname(path), exist_ok=True)
    with open(path, "w", encoding="utf-8") as file:
        file.write(text)


def put_trees(bench):
    for place, name in enumerate(BELOW):
        events = [{"ph": "X", "name": "a", "ts": 1, "dur": place}, {"ph": "b", "cat": "c", "name": "n", "id": 1, "ts": place}]
        put(bench, f"linked/{name}", json.dumps([*events, *[5] * (place % 2)]))
        events.append({"ph": "X", "name": ',"file":"', "ts": 4, "dur": place, "args": {'"file"': name}})
        put(bench, f"{ODD}/{name}", json.dumps(events)[: -2 if place == 5 else None])
    put(bench, "linked/list", "tree/sub\n")
    put(bench, "inputs", "3.json\0-\0cut.json")
    for name, target in {"linked/e.json": "b.json", "linked/self": ".", "tree": "linked"}.items():
        os.symlink(target, os.path.join(bench.folder, name))
    put(bench, "none/a.txt", "")
    put(bench, f"{SPOILED}/a.json", "[]")
    for name in b"b/.\xff", b"b/c/\xff":
        put(bench, os.path.join(SPOILED.encode(), name), "")


def remove_all(bench):
    """Removes what isn't among the traces."""
    for name in set(os.listdir(bench.folder)).difference(bench.names):
        path = os.path.join(bench.folder, name)
        if os.path.isdir(path) and not os.path.islink(path):
            shutil.rmtree(path)
        else:
            os.remove(path)


def expect_same(bench, what, words, *given):
    wanted = bench.outcome([bench.program, *([] if "--apart" in words else ["--apart"]), *words], *given)
    found = bench.outcome(engine(*words), *given)
    if found != wanted:
        fail(f"{what}: {words} gave {found}, and not {wanted}")


def try_same(bench):
    for name in *ODD_NAMES, "cut.json":
        put(bench, name, '[{"ph":"X","name":"odd","ts":1,"dur":2}' + ("]" if name != "cut.json" else ',{"ph'))
    put_trees(bench)
    kinds = [*SAME.items(), *OF_TREES.items()]
    kinds += [(what, words, given.encode()) for what, (words, given) in OF_INPUT.items()]
    with ThreadPoolExecutor(AT_A_TIME) as pool:
        list(pool.map(lambda kind: expect_same(bench, *kind), kinds))
    remove_all(bench)
    print(f"{len(kinds)} kinds of words", flush=True)


def try_own(bench):
    for what, (words, rule) in OWN.items():
        status, text, said = bench.outcome(engine("--json", "3.json", *words))
        if (status, text) != (2, b"") or not said.startswith("error: ") or rule not in said:
            fail(f"{what}: status {status}, {text!r}, {said!r}")
    print("options of the command's own", flush=True)


def try_closed_streams(bench):
    """The text and the status stay what they are without a place for lines, or for the text."""
    for what, script in WITHOUT.items():
        for words in STREAMED:
            begun = "sh", "-c", script, "sh"
            wanted = bench.outcome([*begun, bench.program, "--apart", "--top", "3", *words])
            found = bench.outcome([*begun, *engine("--top", "3", *words)])
            if found != wanted:
                fail(f"without {what}: {words} gave {found}, and not {wanted}")
    print("closed streams", flush=True)


def try_without_dask(bench):
    """Python without what is installed for it, and a path without the program."""
    bare = [sys.executable, "-S", "-B", ENGINE]
    status, text, said = bench.outcome([*bare, "--json", "3.json"])
    if (status, text) != (2, b"") or not said.startswith("tracebook_dask: Dask is missing"):
        fail(f"without Dask: status {status}, {text!r}, {said!r}")
    for path in bench.path, os.devnull:
        ended = subprocess.run([*bare, "--help"], env={**os.environ, "PATH": path}, capture_output=True, timeout=PATIENCE)
        if (ended.returncode, ended.stderr) != (0, b"") or b"Usage: tracebook_dask " not in ended.stdout or b"--parts" not in ended.stdout:
            fail(f"help without Dask: status {ended.returncode}, {ended.stdout!r}, {ended.stderr!r}")
    print("without Dask", flush=True)


def try_words(bench):
    expect_all_options(bench)
    try_same(bench)
    try_own(bench)
    try_closed_streams(bench)
    try_without_dask(bench)
