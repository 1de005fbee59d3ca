"""What the benchmarks share: traces made of events such as tracers write, and the cost of a process that reads one."""
import os
import shutil
import subprocess
import time

CRATES = os.path.join(os.path.dirname(os.path.abspath(__file__)), "..", "crates")
BENCH_READING = os.path.join(CRATES, "bench_reading", "out", "bench_reading")
TRACEBOOK = os.path.join(CRATES, "..", "tracebook")
END = '],"beginningOfTime":1}'
TURNS = 3
# What lets a command have the first processor alone.
ON_ONE_PROCESSOR = ["taskset", "-c", str(min(os.sched_getaffinity(0)))]
# Readers in Rust, for comparison.
RUST_READERS = os.path.join(os.path.dirname(os.path.abspath(__file__)), "names_reader")
# A file of the largest size that is read, but for a little.
LARGEST = 67_108_000


def chrome_event(place):
    """A complete event as Chrome writes it, one of some hundred names on sixteen threads in each of three processes."""
    return chrome_event_on(7000 + place % 3, place % 16, place)


def chrome_event_on_one_thread(place):
    return chrome_event_on(7000, 1, place)


def chrome_event_on(pid, tid, place):
    return (
        '{"pid":%d,"tid":%d,"ts":%d,"ph":"X","cat":"toplevel,ipc","name":"Task %d",'
        '"args":{"src_file":"base/task.cc","src_func":"Run","count":%d},"dur":%d,"tdur":%d,"tts":%d}'
        % (pid, tid, 1000 + 13 * place, place % 97, place, place % 4000, place % 900, 11 * place)
    )


# Category, scope and name of async spans, as Chrome has them.
ASYNC_KINDS = [
    ("cc,benchmark", "cc,benchmark", "PipelineReporter"),
    ("benchmark,latencyInfo,rail,input.scrolling", "latency", "InputLatency::GestureScrollUpdate"),
    ("netlog", "", "HTTP_STREAM_JOB_CONTROLLER"),
    ("netlog", "", "URL_REQUEST"),
    ("blink.resource", "", "ResourceLoad"),
    ("viz,benchmark", "graphics.pipeline", "Graphics.Pipeline"),
]
# So many async spans are open at once, and their ends come in an order that the seed chooses.
ASYNC_OPEN, ASYNC_SEED = 120, 20261127


def async_event(place):
    """The begin or the end of an async span as Chrome writes it, each with an id of its own; every seventh event is a complete one."""
    if place % 7 == 6:
        return chrome_event(place)
    block, step = divmod(place - place // 7, 2 * ASYNC_OPEN)
    begins = step < ASYNC_OPEN
    span = ASYNC_OPEN * block + (step if begins else (77 * step + ASYNC_SEED) % ASYNC_OPEN)
    cat, scope, name = ASYNC_KINDS[span % len(ASYNC_KINDS)]
    return '{"pid":%d,"tid":%d,"ts":%d,"ph":"%s","cat":"%s","name":"%s",%s"id":"0x%x","args":{"%s":%d},"tts":%d}' % (
        7000 + place % 3,
        place % 16,
        1000 + 13 * place,
        "b" if begins else "e",
        cat,
        name,
        '"scope":"%s",' % scope if scope else "",
        # A number for each span: the factor is odd.
        (ASYNC_SEED + 2_654_435_761 * span) % 2**32,
        "sequence_number" if begins else "termination_status",
        span % 1000 if begins else span % 4,
        11 * place,
    )


def stack_event(place):
    """A complete event as DevTools records it, with a stack trace: a list of objects within the element."""
    frames = ",".join(
        '{"columnNumber":%d,"functionName":"f%d","lineNumber":%d,"scriptId":"%d","url":"https://example.org/app.js"}'
        % (place % 80, (place + depth) % 300, place % 900, place % 7)
        for depth in range(3)
    )
    return (
        '{"args":{"data":{"stackTrace":[%s]}},"cat":"devtools.timeline","dur":%d,"name":"FunctionCall","ph":"X","pid":7000,"tid":%d,"ts":%d}'
        % (frames, place % 4000, place % 16, 1000 + 13 * place)
    )


def clang_event(place):
    """A complete event as clang's -ftime-trace writes it, on one thread."""
    return '{"pid":4242,"tid":4242,"ph":"X","ts":%d,"dur":%d,"name":"Source","args":{"detail":"/usr/include/c++/12/bits/header_%d.h"}}' % (
        5000 + 17 * place,
        place % 30000,
        place % 500,
    )


def begin_or_end(place):
    """A begin and then its end, each with arguments, on eight threads of one process."""
    thread = place // 2 % 8
    if place % 2 == 0:
        return (
            '{"name":"handle request","cat":"server","ph":"B","pid":1,"tid":%d,"ts":%d,'
            '"args":{"method":"GET","path":"/a/b/%d","size":%d}}' % (thread, 100 + 3 * place, place % 1000, place)
        )
    return '{"ph":"E","pid":1,"tid":%d,"ts":%d,"args":{"status":%d}}' % (thread, 100 + 3 * place, 200 + place % 5)


def write_array(path, event, size, end):
    """Writes an array of as many events as `size` bytes hold, with that text after the last."""
    with open(path, "w") as trace:
        written = trace.write("[" + event(0))
        place = 1
        text = "," + event(place)
        while written + len(text) + len(end) <= size:
            written += trace.write(text)
            place += 1
            text = "," + event(place)
        trace.write(end)
    return os.path.getsize(path)


def write_trace(path, event, size):
    """Writes as many events as `size` bytes hold, and gives the size of the file."""
    with open(path, "w") as trace:
        written = trace.write('{"traceEvents":[')
        place = 0
        text = event(place)
        while written + len(text) + len(END) <= size:
            written += trace.write(text)
            place += 1
            text = "," + event(place)
        trace.write(END)
    return os.path.getsize(path)


def measured(command, path):
    """Seconds, the peak of memory in bytes, and seconds of processor time, of one run; None where it fails."""
    with open(path) as trace:
        started = time.monotonic()
        process = subprocess.Popen(command, stdin=trace, stdout=subprocess.DEVNULL)
        _, status, usage = os.wait4(process.pid, 0)
        seconds = time.monotonic() - started
    return (seconds, usage.ru_maxrss * 1024, usage.ru_utime + usage.ru_stime) if status == 0 else None


def rust_reader(name, folder):
    """The reader of this name, built in the folder, or None where it can't be built here."""
    if not shutil.which("cargo"):
        return None
    built = subprocess.run(["cargo", "build", "--quiet", "--release", "--offline", "--target-dir", folder], cwd=RUST_READERS)
    return os.path.join(folder, "release", name) if built.returncode == 0 else None
