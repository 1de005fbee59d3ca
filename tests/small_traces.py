"""Small traces that are drawn by lot, of which some are cut off, and folders of them. Some names and arguments are like names of C++, for
which the folder of the model is to be on the path."""
import json
import os

from template_texts import template_text

# Some of these are one, once their templates are merged.
TEMPLATES = ["f<a>", "f<b<a>>", "f<b<a>> ", "f<b", "f<a->b>", "operator<", "operator<<a>", "operator<<b>", "my_operator<<b>>", "f<$>"]
# Values of arguments, of which some have the same text, and others are no text at all.
VALUES = [1, "1", -7, "x", "", None, "null", True, False, "true", 1.5, [], "...", "-", *TEMPLATES[:4]]

# Names of processes, threads and spans that are written alike in folded stacks, and others.
ALIKE = ["", "-", "a;b", "a:b", "a b", "a\nb", "a", "1"]

# Names within folders, in two parts.
STEMS = ["a", "a-", "B", "é", "z.json", "~", " ", "10", "9", "ｚ", "𝄞", "a", "b", ".", ".k"]
ENDINGS = [".json", ".json", ".json", ".json", "", ".jsonl", ".JSON", ".json.gz"]


def time(chance, most, in_fractions):
    return chance.randrange(1_000 * most) / 1_000 if in_fractions else chance.randrange(most)


def name_of(chance, names):
    """One of these names, or of those that are like names of C++."""
    kind = chance.randrange(12)
    return template_text(chance.choice) if kind == 0 else chance.choice(TEMPLATES if kind < 4 else names)


def arguments(chance):
    return {key: chance.choice(VALUES) for key in chance.choice(["", "k", "k", "kl", "l", 'é"'])}


def async_event(chance, in_fractions):
    """An event of one of a few async spans. An id that is known everywhere may be written as a table has one that is local to a process."""
    made = {"ph": chance.choice("bbeen"), "cat": chance.choice(["c", "é"]), "name": name_of(chance, ["a", "ab"])}
    made |= {"pid": chance.randrange(7, 9), "ts": time(chance, 100, in_fractions)}
    made |= chance.choice([{"id": "1"}, {"id": "7:1"}, {"id2": {"local": "1"}}])
    return made | chance.choice([{}, {}, {"scope": "b"}])


def event(chance, in_fractions, process):
    if process is None and chance.randrange(3) == 0:
        return async_event(chance, in_fractions)
    process = 7 if process is None else process
    phase = chance.choice("BEXXM")
    name = name_of(chance, ["a", "a", "a", "ab", "b", "é"])
    if phase == "M":
        return {"ph": "M", "name": "process_name", "pid": process, "tid": 1, "args": {"name": name}}
    made = {"ph": phase, "name": name, "pid": process, "tid": chance.randrange(2), "ts": time(chance, 100, in_fractions)}
    if phase == "X":
        made |= {"dur": time(chance, chance.choice([20, 80]), in_fractions)}
    return made | ({"args": arguments(chance)} if chance.randrange(4) else {})


def named_event(chance, in_fractions):
    """An event of one of a few threads of a few processes, or a name of one of these, which may be that of another."""
    made = event(chance, in_fractions, 0) | {"pid": chance.randrange(3), "tid": chance.randrange(2)}
    if made["ph"] == "M":
        return made | {"name": chance.choice(["process_name", "thread_name"]), "args": {"name": name_of(chance, ALIKE)}}
    return made | ({} if chance.randrange(3) else {"name": chance.choice(ALIKE)})


def text_of(chance, events):
    """A trace of these events, or, now and then, most of one."""
    text = json.dumps(events, ensure_ascii=False)
    return text if chance.randrange(8) else text[:-2]


def trace(chance, in_fractions, process=None):
    """A trace of this process alone, if there is one."""
    return text_of(chance, [event(chance, in_fractions, process) for _ in range(chance.randrange(40))])


def put_text(path, text):
    with open(path, "w", encoding="utf-8") as file:
        file.write(text)


def put_traces(folder, chance, count, in_fractions=False):
    """Makes so many files, whose times may have fractions, and gives their names."""
    names = [f"{number}.json" for number in range(count)]
    for name in names:
        put_text(os.path.join(folder, name), trace(chance, in_fractions))
    return names


def put_named_traces(folder, chance, count, in_fractions=False):
    """Makes so many files of a few processes and threads each, some of which have names, and gives the files' names."""
    names = [f"named {number}.json" for number in range(count)]
    for name in names:
        put_text(os.path.join(folder, name), text_of(chance, [named_event(chance, in_fractions) for _ in range(chance.randrange(30))]))
    return names


def put_tree(folder, chance, processes, in_fractions=False):
    """Makes a folder, and in it and below it files, each with a process of its own, of which there are these, other folders, and links to
    what stands there or doesn't."""
    os.mkdir(folder)
    folders, others = [folder], ["none"]
    for process in processes:
        path = os.path.join(chance.choice(folders), chance.choice(STEMS) + chance.choice(ENDINGS))
        if os.path.lexists(path) or path.endswith("/."):
            continue
        if chance.randrange(4) == 0:
            os.mkdir(path)
            folders.append(path)
        elif chance.randrange(5) == 0:
            os.symlink(os.path.abspath(chance.choice([*folders, *others])), path)
        else:
            put_text(path, trace(chance, in_fractions, process))
        others.append(path)


def spoil_tree(folder, chance):
    """Makes a file or two whose names aren't UTF-8, in some folder of a tree."""
    folders = [place for place, _, _ in os.walk(os.fsencode(folder))]
    for place in chance.choices(folders, k=2):
        with open(os.path.join(place, chance.choice([b"\xff", b".\xff", b"a\xff.json"])), "wb"):
            pass
