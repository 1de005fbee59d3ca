#!/usr/bin/env python3
"""A plain model of tracebook. It reads files by docs/format.md (reading.py), tells them one after another to a ledger by
docs/ledger.md (ledger.py), and prints the report of docs/report.md. It is written from these pages alone and shares nothing with
the program, so that the two can be compared. It knows no limit of the journal or of the files of a run, and no workers.

Where --nanoseconds or --large is given, files with refused events are warned of.

usage: report.py [--seal] [--strict] [--large] [--nanoseconds] [FILE...]
"""
import gc
import sys
from collections import Counter
from json.encoder import encode_basestring as json_text

from folders import STANDARD_INPUT, files_of
from ledger import Ledger, busy_time, self_times
from reading import MICROSECONDS, NANOSECONDS, Refused, elements_of
from said import Said, Stopped


def name_text(name):
    return "-" if name is None else json_text(name)


def id_word(order):
    """The word of an id in its order."""
    if order == (0,):
        return "-"
    return json_text(order[1]) if order[0] == 1 else f"{order[1]}:{json_text(order[2])}"


def span_lines(closed, times):
    totals = {}
    for (start, end, _, name, _), own in zip(closed, times):
        count, total, self_time = totals.get(name, (0, 0, 0))
        totals[name] = (count + 1, total + end - start, self_time + own)
    for name, (count, total, own) in sorted(totals.items()):
        yield f"span {count:8} {total:16} {own:16} {json_text(name)}"


def thread_lines(number, thread):
    times = self_times(thread.closed)
    yield f"thread {number[0]} {number[1]} {name_text(thread.name)} open {len(thread.open)} busy {busy_time(thread.closed)}"
    yield from span_lines(thread.closed, times)
    for (name, reach), count in sorted(thread.instants.items()):
        yield f"instant {reach} {count:8} {json_text(name)}"


def series_line(process, key, samples):
    name, id_, member = key
    values = [value for _, _, value in samples]
    words = f"counter {process} {json_text(name)} {id_word(id_)} {json_text(member)}"
    return f"{words} samples {len(values)} least {min(values)} greatest {max(values)} last {max(samples)[2]}"


def process_lines(number, process):
    yield f"process {number} {name_text(process.name)}"
    for thread in sorted(process.threads):
        yield from thread_lines(thread, process.threads[thread])
    for key in sorted(process.series):
        yield series_line(number, key, process.series[key])


def async_line(key, spans):
    category, scope, id_, name = key
    words = f"async {json_text(category)} {json_text(scope)} {id_word(id_)} {json_text(name)}"
    return f"{words} closed {spans.closed} total {spans.total} open {len(spans.open)} points {spans.points}"


def flow_line(key, flows):
    category, name, id_ = key
    words = f"flow {json_text(category)} {json_text(name)} {id_word(id_)}"
    return f"{words} ended {flows.ended} total {flows.total} open {len(flows.chain)}"


def first_lines(unit):
    """The first lines of a text."""
    yield "tracebook 1"
    if unit == NANOSECONDS:
        yield "unit nanoseconds"


def count_lines(ledger):
    """The lines of a head behind its first ones."""
    yield f"events {ledger.accepted} refused {sum(ledger.refused.values())} skipped {ledger.skipped} queries 0"
    if ledger.seals:
        yield f"seals {ledger.seals}"


def report_lines(ledger):
    yield from first_lines(ledger.unit)
    yield from count_lines(ledger)
    for number in sorted(ledger.processes):
        yield from process_lines(number, ledger.processes[number])
    for key in sorted(ledger.async_keys):
        yield async_line(key, ledger.async_keys[key])
    for key in sorted(ledger.flow_keys):
        yield flow_line(key, ledger.flow_keys[key])


def text_of(lines):
    """The bytes of lines."""
    return "".join(line + "\n" for line in lines).encode()


def report_of(ledger):
    return text_of(report_lines(ledger))


def collect(files, strict=False, unit=MICROSECONDS, large=False):
    """The ledger of files, each a name and its bytes, and what is said of them."""
    ledger, said = Ledger(strict, unit), Said()
    for name, data in files:
        accepted, refused = ledger.accepted, Counter(ledger.refused)
        try:
            for element in elements_of(data, large):
                ledger.take(element)
        except Refused as refusal:
            said.refuse(name, refusal.number)
        said.count(name, ledger.accepted - accepted, ledger.refused - refused)
    return ledger, said


def bytes_of(path):
    """The bytes of a file, or of standard input."""
    if path == STANDARD_INPUT:
        return sys.stdin.buffer.read()
    with open(path, "rb") as file:
        return file.read()


def main():
    gc.disable()  # Nothing here is let go in rings, and to look for them takes long.
    words = sys.argv[1:]
    names = [word for word in words if word not in ("--seal", "--strict", "--large", "--nanoseconds")] or [STANDARD_INPUT]
    unit = NANOSECONDS if "--nanoseconds" in words else MICROSECONDS
    try:
        paths = [file.path for file in files_of(names)]
    except Stopped as stopped:
        print(stopped, file=sys.stderr)
        return 2
    ledger, said = collect(((path, bytes_of(path)) for path in paths), "--strict" in words, unit, "--large" in words)
    if "--seal" in words:
        ledger.seal()
    sys.stdout.buffer.write(report_of(ledger))
    for line in said.lines() if "--nanoseconds" in words or "--large" in words else said.faults:
        print(line, file=sys.stderr)
    return 1 if said.faults else 0


if __name__ == "__main__":
    sys.exit(main())
