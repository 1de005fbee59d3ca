#!/usr/bin/env python3
"""Writes a trace of some 500,000 elements: events of all phases over many threads, keys, series and names, nested, crossing, and
refused with each number of docs/format.md and docs/ledger.md. The same elements stand in whole.json, in one order, and in
part_0.json and on, divided so that no two parts share a process or a key. The seed decides all.

With --nanoseconds the trace is a third as large, and its times have fractions.

usage: trace.py [--nanoseconds] SEED FOLDER
"""
import gc
import json
import os
import random
import sys

from elements import OTHERS, faults_in, odd_events_in
from reading import MOST_64
from template_texts import template_text
from times import FractionTimes, WholeTimes

PARTS = 4
PROCESSES = 1_600
THREADS = 2_700
NAMES = 4_000
ASYNC_KEYS = 60_000
ALIKE_KEYS = 1_500
FLOW_KEYS = 40_000
LONG_CHAIN = 5_000
DEEP_STACK = 10_000
CROSSING = 8_000
EXTREMES = 3_000
SAMPLES = 20_000
MEMBERS = 3_000
INSTANTS = 20_000
NAMINGS = 15_000
REFUSED = 15_000
UNUSED = 5_000
LONG_TEXTS = [5_000, 70_000, 300_000]
LETTERS = "abcdefghijklmnopqrstuvwxyzABCDEFGHIJKLMNOPQRSTUVWXYZ0123456789 .:_<>/{}[],"
RARE = ['"', "\\", "\n", "\t", "\0", "\x1f", "\x7f", "\b", "\f", "\r"]
RARE += ["é", "ß", "€", "\u2028", "語", "\uffff", "😀", "\U0010ffff"]


class Draw:
    """Random choices, quicker than the library's."""

    def __init__(self, seed):
        self.fraction = random.Random(seed).random

    def below(self, count):
        return int(self.fraction() * count)

    def of(self, choices):
        return choices[int(self.fraction() * len(choices))]

    def whether(self, chance):
        return self.fraction() < chance


# Texts and members


def text_of_bytes(draw, count):
    """A text of so many bytes, or up to three more."""
    letters, left = [], count
    while left > 0:
        letters.append(draw.of(RARE) if draw.whether(0.08) else draw.of(LETTERS))
        left -= len(letters[-1].encode())
    return "".join(letters)


def json_form(draw, text):
    """A text as JSON, with as few escapes as may be or with more."""
    form = json.dumps(text, ensure_ascii=draw.whether(0.3))
    return form.replace("/", "\\/") if draw.whether(0.2) else form


def different_texts(draw, count):
    """Texts as JSON, of up to 40 bytes, most of some 16; some are like names of C++, which may be longer."""
    texts = dict.fromkeys(["", "a"])
    while len(texts) < count:
        size = draw.below(40) if draw.whether(0.3) else 12 + draw.below(9)
        texts[template_text(draw.of) if draw.whether(0.2) else text_of_bytes(draw, size)] = None
    return [json_form(draw, text) for text in texts]


def args_forms(draw):
    """Members `args`: mostly none, some that are read as empty, some with `detail` alone, and objects of few and of many members."""
    values = ["1", "-7", str(MOST_64), '"text"', '"a text past sixteen"', "true", "false", "null"]
    values += ["1.5", "-0", "[1,{}]", '{"b":[]}', str(2**64), "1e300"]
    forms = [""] * 600 + [',"args":{}', ',"args":null', ',"args":[]', ',"args":"text"']
    forms += [f',"args":{{"detail":{value}}}' for value in values * 8]
    forms += [f',"args":{{"detail":{json_form(draw, template_text(draw.of))}}}' for _ in range(60)]
    for size in [1, 2, 3] * 60 + [16, 17, 40, 300]:
        members = [f'"{draw.of(LETTERS[:26])}{draw.below(2 * size)}":{draw.of(values)}' for _ in range(size)]
        forms.append(f',"args":{{{",".join(members)}}}')
    return forms


# Members that no event reads, or none of the phase, so that they may hold anything.
UNREAD = [""] * 60 + [',"tts":5', ',"cname":"good"', ',"tdur":null', ',"sf":7', ',"stack":[1,2]', ',"bp":"e"']
UNREAD += [',"more":{"ph":"B","ts":[]}']
UNREAD_AT_SPAN = UNREAD + [',"id":[]', ',"id2":5', ',"scope":9', ',"s":"x"']
UNREAD_AT_KEY = UNREAD + [',"dur":-1', ',"s":null', ',"s":"z"']
UNREAD_AT_FLOW = UNREAD_AT_KEY + [',"scope":5', ',"scope":null']
UNREAD_AT_NAME = UNREAD + [',"id":[]', ',"id2":5', ',"scope":9', ',"dur":null']


class Trace:
    """The elements so far, each with the place in the whole trace where it stands and its part."""

    def __init__(self, seed, times):
        self.draw, self.times = Draw(seed), times
        self.elements = []
        self.names = different_texts(self.draw, NAMES)
        self.categories = [json.dumps(text) for text in ["", "v8", "blink,gpu", "disabled-by-default-v8", 'a"b', "é"]]
        self.args = args_forms(self.draw)
        self.processes = self.some_processes()

    def some_processes(self):
        """Numbers of processes; the part of each is the remainder of its place."""
        numbers = {0, -1, MOST_64, -MOST_64 - 1, 2**31, 2**32}
        while len(numbers) < PROCESSES:
            numbers.add(self.draw.below(20_000) - 100)
        return sorted(numbers)

    def some(self, count):
        """How many of so many there are in a trace of this size."""
        return count // self.times.share

    def time_below(self, microseconds):
        return self.draw.below(microseconds * self.times.scale)

    def process_in(self, part):
        return self.processes[self.draw.below(PROCESSES // PARTS) * PARTS + part]

    def put(self, place, part, element):
        self.elements.append((place, part, element))

    def put_event(self, place, part, phase, time, process, members, unread=UNREAD):
        """Puts an event whose members, with a comma before each, stand in front of the others or behind them. A time may be a text."""
        draw = self.draw
        time = time if isinstance(time, str) else self.times.form(draw, time)
        owner = "" if process == 0 and draw.whether(0.5) else f',"pid":{process}'
        if draw.whether(0.5):
            element = f'{{"ph":"{phase}"{members}{owner},"ts":{time}{draw.of(unread)}}}'
        else:
            element = f'{{"ts":{time}{owner}{draw.of(unread)},"ph":"{phase}"{members}}}'
        self.put(place, part, element)


# Threads


class Thread:
    """A thread whose events are put one behind the other, spread over the rest of the trace."""

    def __init__(self, trace, index, thread, count):
        self.trace, self.draw = trace, trace.draw
        self.process, self.part, self.thread = trace.processes[index], index % PARTS, thread
        self.place = self.draw.fraction()
        self.step = (1 - self.place) / count
        self.names = [self.draw.of(trace.names) for _ in range(1 + self.draw.below(30))]
        self.begun = []  # the names of the begins so far
        self.scale = trace.times.scale
        self.time = trace.time_below(1_000_000)

    def pass_time(self):
        self.time += 0 if self.draw.whether(0.2) else self.trace.time_below(100)

    def put(self, phase, time, members):
        members += "" if self.thread == 0 and self.draw.whether(0.5) else f',"tid":{self.thread}'
        members += self.draw.of(self.trace.args)
        self.trace.put_event(self.place, self.part, phase, time, self.process, members, UNREAD_AT_SPAN)
        self.place += self.step

    def begin(self, time):
        self.begun.append(self.draw.of(self.names))
        self.put("B", time, f',"name":{self.begun[-1]},"cat":"c"')

    def end(self, time):
        """Ends a span, most often without a name, or with that of the last begin that no end was put for."""
        name = self.begun.pop() if self.begun and self.draw.whether(0.3) else '"another"'
        self.put("E", time, "" if self.draw.whether(0.6) else f',"name":{name}')

    def complete(self, start, end):
        length = self.trace.times.form(self.draw, end - start)
        self.put("X", start, f',"dur":{length},"name":{self.draw.of(self.names)}')


def begins_and_ends(thread, count):
    """Nested begins and ends, with complete events between them, and some that are refused."""
    depth = 0
    for _ in range(count):
        thread.pass_time()
        kind = thread.draw.fraction()
        if kind < 0.05:
            thread.complete(thread.time - 30 * thread.scale, thread.time)
        elif kind < 0.08:
            thread.begin(thread.time - 1_000 * thread.scale)
        elif kind < 0.11:
            thread.end(thread.time - 1_000 * thread.scale)
        elif kind < 0.56 and depth < 30:
            thread.begin(thread.time)
            depth += 1
        else:
            thread.end(thread.time)
            depth = max(depth - 1, 0)


def nested_completes(thread, count):
    """The start and the end of spans that nest, in the order in which they end."""
    starts = []
    for _ in range(2 * count):
        thread.pass_time()
        if starts and thread.draw.whether(0.5):
            yield starts.pop(), thread.time
        else:
            starts.append(thread.time)


def children_first(thread, count):
    for start, end in nested_completes(thread, count):
        thread.complete(start, end)


def parents_first(thread, count):
    for start, end in sorted(nested_completes(thread, count), key=lambda span: (span[0], -span[1])):
        thread.complete(start, end)


def crossing(thread, count):
    for _ in range(count):
        start = thread.time + thread.trace.time_below(20 * count)
        thread.complete(start, start + thread.trace.time_below(200 if thread.draw.whether(0.99) else 20 * count))


def deep_stack(thread, count):
    for _ in range(count):
        thread.pass_time()
        thread.begin(thread.time)
    for _ in range(count // 2):
        thread.pass_time()
        thread.end(thread.time)


def extreme_times(thread, count):
    """Lengths that add up to more than 64 bits, and the first and the last time that there is."""
    most = thread.trace.times.most
    thread.begin(-most)
    for _ in range(count):
        start = thread.draw.of([-most, 0, most, thread.draw.below(most)])
        thread.complete(start, start + most)
    thread.end(most)


def put_threads(trace):
    styles = [begins_and_ends, begins_and_ends, children_first, parents_first, crossing]
    for number in range(trace.some(THREADS)):
        index = trace.draw.below(PROCESSES) if trace.draw.whether(0.3) else 5
        thread = trace.draw.of([number, number, number, -number, number % 7, MOST_64])
        trace.draw.of(styles)(Thread(trace, index, thread, 70), 10 + trace.draw.below(60))
    larger = [(crossing, CROSSING), (deep_stack, DEEP_STACK), (children_first, 2 * NAMES), (extreme_times, EXTREMES)]
    for style, count in larger:
        thread = Thread(trace, trace.draw.below(PROCESSES), 2**40, 2 * count)
        thread.names = trace.names if style != extreme_times else trace.names[:1]
        style(thread, count)


# Keys


ASYNC_STEPS = ["be"] * 6 + ["bne", "bbee", "bnbnene", "b", "n", "e", "bee", "b<e", "bbe"]
FLOW_STEPS = ["sf"] * 4 + ["stf", "sttf", "st", "s", "t", "f", "ssf", "s<f", "sfsf", "sftf", "stfst"]
LARGE_STEPS = ["s" + "t" * LONG_CHAIN, "s" + "t" * LONG_CHAIN + "f", "b" * EXTREMES + "e" * (EXTREMES // 2)]


def id_forms(draw, number):
    """The forms of one id, and whether it is known in its process alone."""
    form = draw.below(4)
    if form == 0:
        return [f',"id":"0x{number:x}"', f',"id2":5,"id":"0x{number:x}"'], False
    if form == 1:
        return [f',"id":{number}', f',"id":"{number}"'], False
    if form == 2:
        return [f',"id2":{{"global":"0x{number:x}","local":[]}}', f',"id":"0x{number:x}"'], False
    return [f',"id2":{{"local":{number // PROCESSES}}}', f',"id2":{{"local":"{number // PROCESSES}"}}'], True


def put_steps(trace, part, home, forms, steps, common, unread):
    """Puts the events of a key, in the order of their letters, all in its home if it has one; `<` stands for an end or a point before the
    one before it."""
    draw = trace.draw
    place, spread, time = draw.fraction(), draw.fraction() / 1_000, trace.time_below(1_000_000)
    for letter in steps:
        time += trace.time_below(100)
        process = trace.process_in(part) if home is None else home
        phase = letter if letter != "<" else "e" if steps[0] == "b" else "t"
        members = draw.of(forms) + common + draw.of(trace.args)
        trace.put_event(place, part, phase, time if letter != "<" else -time - 1, process, members, unread)
        place += spread


def put_key(trace, number, steps, common, unread):
    forms, is_local = id_forms(trace.draw, number)
    home = trace.processes[number % PROCESSES] if is_local else None
    put_steps(trace, number % PARTS, home, forms, steps, common, unread)


def put_keys(trace):
    draw = trace.draw
    scopes = ["", ',"scope":""', ',"scope":"blink"', ',"scope":"a\\"\\u00e9"']
    for number in range(trace.some(ASYNC_KEYS)):
        common = f',"cat":{draw.of(trace.categories)},"name":{draw.of(trace.names)}{draw.of(scopes)}'
        put_key(trace, number, draw.of(ASYNC_STEPS), common, UNREAD_AT_KEY)
    for number in range(trace.some(FLOW_KEYS)):
        common = f',"cat":{draw.of(trace.categories)},"name":{draw.of(trace.names)}'
        put_key(trace, number, draw.of(FLOW_STEPS), common, UNREAD_AT_FLOW)


def put_alike_keys(trace):
    """Async keys that differ in their ids alone: ids of one text, each local to another process, and for each of them an id that is known
    everywhere and has the process before that text."""
    for index in range(trace.some(ALIKE_KEYS)):
        home = trace.processes[index]
        for forms in [',"id2":{"local":"alike"}'], [f',"id":"{home}:alike"']:
            steps = trace.draw.of(["be", "bbe", "b", "n", "bnne"])
            put_steps(trace, index % PARTS, home, forms, steps, ',"cat":"c","name":"alike"', UNREAD_AT_KEY)


def put_large_keys(trace):
    """Chains of many points, closed and not, many open begins, and lengths that add up to more than 64 bits."""
    for number, steps in enumerate(LARGE_STEPS):
        put_key(trace, number, steps, ',"name":"large"', UNREAD_AT_KEY)
    most = trace.times.most
    for begin, end in ["be", "sf"]:
        for turn in range(EXTREMES):
            for place, phase, time in [(0, begin, -most), (0.5, end, most)]:
                trace.put_event((turn + place) / EXTREMES, 1, phase, time, trace.process_in(1), ',"id":"far"')


# Counters, instants and names


def put_counters(trace):
    draw = trace.draw
    values = [0, -1, 7, MOST_64, -MOST_64 - 1]
    for _ in range(trace.some(SAMPLES)):
        part = draw.below(PARTS)
        id_ = draw.of(["", "", ',"id":"7"', ',"id":7', ',"id2":{"local":"7"}', ',"id":"é"'])
        chosen = dict.fromkeys(draw.of(trace.names[:40]) for _ in range(draw.below(4)))
        members = ",".join(f"{member}:{draw.of(values) if draw.whether(0.1) else draw.below(1_000)}" for member in chosen)
        name = f',"name":{draw.of(trace.names[:200])}{id_}'
        trace.put_event(draw.fraction(), part, "C", trace.time_below(1_000), trace.process_in(part), f'{name},"args":{{{members}}}')
        if draw.whether(0.2):
            members = f',"name":"often","args":{{"k":{draw.below(10_000)}}}'
            trace.put_event(draw.fraction(), 1, "C", trace.time_below(1_000), trace.processes[1], members)


def put_instants(trace):
    draw = trace.draw
    reaches = ["", ',"s":"g"', ',"s":"p"', ',"s":"t"']
    for _ in range(trace.some(INSTANTS)):
        part = draw.below(PARTS)
        process, thread = (trace.process_in(part), draw.below(9)) if draw.whether(0.6) else (trace.processes[part], 1)
        members = f',"tid":{thread},"name":{draw.of(trace.names)}{draw.of(reaches)}{draw.of(trace.args)}'
        trace.put_event(draw.fraction(), part, draw.of("iI"), trace.time_below(1_000), process, members, UNREAD_AT_NAME)


def put_names(trace):
    """Metadata events with an effect and without."""
    draw = trace.draw
    plain = ["thread_sort_index", "process_sort_index", "process_labels", "num_cpus", ""]
    indices = ["5", "-7", "1.5", '"5"', "null", str(MOST_64), str(2**63)]
    for _ in range(trace.some(NAMINGS)):
        part = draw.below(PARTS)
        members = f',"tid":{draw.below(20)}'
        if draw.whether(0.7):
            name = draw.of(trace.names) if draw.whether(0.8) else draw.of(["5", "null", "[]"])
            members += f',"name":"{draw.of(["process_name", "thread_name"])}","args":{{"name":{name},"sort_index":1}}'
        else:
            members += f',"name":"{draw.of(plain)}","args":{{"sort_index":{draw.of(indices)},"labels":"a","name":"b"}}'
        time, process = draw.of(["0", "null", "1.5"]), trace.process_in(part)
        trace.put_event(draw.fraction(), part, "M", time, process, members, UNREAD_AT_NAME)


def put_elements(trace):
    """Elements of the tables, where they stand in no part's way."""
    draw = trace.draw
    kinds, odd_events = list(faults_in(trace.times.unit).values()), odd_events_in(trace.times.unit)
    for _ in range(trace.some(REFUSED)):
        trace.put(draw.fraction(), draw.below(PARTS), draw.of(draw.of(kinds)))
    for _ in range(trace.some(UNUSED)):
        trace.put(draw.fraction(), draw.below(PARTS), draw.of(OTHERS))
        part = draw.below(PARTS)
        event = draw.of(odd_events).replace("PID", str(trace.process_in(part))).replace("MOST", trace.times.most_written)
        trace.put(draw.fraction(), part, event)


def put_large_elements(trace):
    """Events with long names, and with many arguments; those of the begin and the end are not the same."""
    draw, process = trace.draw, trace.processes[0]
    for size in LONG_TEXTS:
        name = json_form(draw, text_of_bytes(draw, size))
        trace.put_event(draw.fraction(), 0, "X", 0, process, f',"dur":1,"name":{name}')
    for turn, phase in enumerate("CCBE"):
        members = ",".join(f'"member {number}":{number * turn}' for number in range(turn, MEMBERS, turn + 1))
        trace.put_event(turn / 4, 0, phase, turn, process, f',"tid":{2**41},"name":"wide","args":{{{members}}}')


# Files


def write(path, head, elements, foot):
    with open(path, "w", encoding="utf-8", newline="") as file:
        file.write(head + ",\n".join(elements) + foot)


def main():
    gc.disable()  # Nothing here is let go in rings, and to look for them takes long.
    *switch, seed, folder = sys.argv[1:]
    trace = Trace(seed, FractionTimes if switch == ["--nanoseconds"] else WholeTimes)
    for put in [put_threads, put_keys, put_alike_keys, put_large_keys, put_counters, put_instants, put_names, put_elements]:
        put(trace)
    put_large_elements(trace)
    trace.elements.sort(key=lambda element: element[0])
    write(os.path.join(folder, "whole.json"), "[", [text for _, _, text in trace.elements], "]\n")
    frames = [("[", "]"), ("\n[\n", ",\n"), ("[", ""), ('{"traceEvents":[', '],"displayTimeUnit":"ns"}')]
    for part, (head, foot) in enumerate(frames):
        own = [text for _, of_part, text in trace.elements if of_part == part]
        write(os.path.join(folder, f"part_{part}.json"), head, own, foot)


if __name__ == "__main__":
    main()
