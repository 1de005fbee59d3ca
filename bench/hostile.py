"""Traces that a hostile user might write: each event brings something new that the ledger has to keep."""
import os
import resource
import subprocess
import time
from functools import partial


def process(place):
    """A complete event of a process of its own."""
    return '{"ph":"X","ts":1,"dur":1,"name":"a","pid":%d}' % place


def thread(place):
    """A complete event on a thread of its own."""
    return '{"ph":"X","ts":1,"dur":1,"name":"a","tid":%d}' % place


def unnamed(place):
    """A complete event without a name, of a process of its own."""
    return '{"ph":"X","ts":1,"dur":1,"pid":%d}' % place


def begun_process(place):
    """A begin of a process of its own, which never ends."""
    return '{"ph":"B","ts":1,"name":"a","pid":%d}' % place


def begun_thread(place):
    """The same on a thread of its own."""
    return '{"ph":"B","ts":1,"name":"a","tid":%d}' % place


def begun_name(place):
    """The same with a name of its own."""
    return '{"ph":"B","ts":1,"name":"%x"}' % place


def named(place):
    """A complete event with a name of its own."""
    return '{"ph":"X","ts":1,"dur":1,"name":"%x"}' % place


def marked(place):
    """An instant on a thread of its own."""
    return '{"ph":"i","ts":1,"s":"t","name":"a","tid":%d}' % place


def marked_process(place):
    """An instant of a process of its own."""
    return '{"ph":"i","ts":1,"s":"t","name":"a","pid":%d}' % place


def sampled(place):
    """A counter event of a thousand new series."""
    members = ",".join('"%x":1' % member for member in range(1000 * place, 1000 * place + 1000))
    return '{"ph":"C","ts":1,"name":"a","args":{%s}}' % members


def counted(place):
    """A counter event of one series, of a process of its own."""
    return '{"ph":"C","ts":1,"name":"a","pid":%d,"args":{"s":1}}' % place


def async_begun(place):
    """The begin of an async span with an id of its own."""
    return '{"ph":"b","ts":1,"id":"%x"}' % place


def flow_started(place):
    """The start of a flow chain with an id of its own."""
    return '{"ph":"s","ts":1,"id":"%x"}' % place


# Each shape with its count in the largest file that is read, and the words of its runs.
SHAPES = [
    ("processes", process, 1_260_000, []),
    ("processes without a name", unnamed, 1_550_000, []),
    ("threads", thread, 1_260_000, []),
    ("processes with a begin", begun_process, 1_580_000, ["--seal"]),
    ("threads with a begin", begun_thread, 1_580_000, []),
    ("the same, sealed", begun_thread, 1_580_000, ["--seal"]),
    ("names on one thread", named, 1_600_000, []),
    ("names with a begin", begun_name, 1_900_000, ["--seal"]),
    ("processes with an instant", marked_process, 1_260_000, []),
    ("threads with an instant", marked, 1_260_000, []),
    ("series, 1,000 an event", sampled, 6_180, []),
    ("series of processes", counted, 1_150_000, []),
    ("async spans", async_begun, 2_130_000, []),
    ("flow chains", flow_started, 2_130_000, []),
]
# What a table of a shape is grouped by, where the usual columns have no row for each event.
COLUMNS = {"async spans": ["--of", "async", "--group-by", "id"]}


def long_counter(member, size):
    """A counter event of thousands of series; half of it is one text, of this member."""
    series = ",".join('"%x":1' % place for place in range(size // 18))
    return '[{"ph":"C","ts":1,"%s":"%s","args":{%s}}]' % (member, "n" * (size // 2), series)


def long_holder(kind, argument, size):
    """Spans with names of their own; half of the trace is one text, which a metadata event has as this argument."""
    spans = ",".join('{"ph":"X","ts":1,"dur":1,"name":"%x"}' % place for place in range(size // 86))
    return '[{"ph":"M","name":"%s","args":{"%s":"%s"}},%s]' % (kind, argument, "n" * (size // 2), spans)


# Long texts that thousands of rows share, each with the words of a run in which none of them is printed more than once, and the trace
# of a size in which the text stands in a member of this name; as `unused` it is kept nowhere.
LONG = {
    "name of a counter": (["--refused"], "name", long_counter),
    "id of a counter": (["--refused"], "id", long_counter),
    "name of a process": (["--top", "1", "--group-by", "process,name"], "name", partial(long_holder, "process_name")),
    "name of a thread": (["--top", "1", "--group-by", "thread,name"], "name", partial(long_holder, "thread_name")),
}


def write_shape(path, event, count):
    """Writes so many events, and gives the size of the file."""
    with open(path, "w") as trace:
        written = trace.write("[")
        for place in range(count):
            written += trace.write(event(place) if place == 0 else "," + event(place))
        written += trace.write("]")
    return written


def limited(command, path, most):
    """Seconds, the peak of memory in bytes, and seconds of processor time, of one run that may map so many bytes of memory; None where
    it fails."""
    with open(path) as trace:
        started = time.monotonic()
        process = subprocess.Popen(
            command,
            stdin=trace,
            stdout=subprocess.DEVNULL,
            stderr=subprocess.DEVNULL,
            preexec_fn=lambda: resource.setrlimit(resource.RLIMIT_AS, (most, most)),
        )
        _, status, usage = os.wait4(process.pid, 0)
        seconds = time.monotonic() - started
    process.returncode = status
    return (seconds, usage.ru_maxrss * 1024, usage.ru_utime + usage.ru_stime) if status == 0 else None
