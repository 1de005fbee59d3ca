"""Keys that were chosen to collide in a hash whose keys are public, as many ordinary ones, and traces of either."""
import os
import subprocess

HERE = os.path.dirname(os.path.abspath(__file__))


def named(key):
    return '{"ph":"X","name":"%s","ts":1,"dur":1}' % key


def counted(key):
    return '{"ph":"C","name":"%s","ts":1,"args":{"k":1}}' % key


def of_process(key):
    return '{"ph":"X","name":"a","ts":1,"dur":1,"pid":%s}' % key


def of_thread(key):
    return '{"ph":"X","name":"a","ts":1,"dur":1,"pid":1,"tid":%s}' % key


def ordinary(kind, count):
    """Keys of as many letters or digits, one after the other."""
    return ["name%08d" % place if kind.endswith(("name", "counter")) else str(1_000_000_000 + place) for place in range(count)]


def compiled(folder):
    """The program that finds keys."""
    program = os.path.join(folder, "collide")
    subprocess.run(["gcc", "-O3", "-o", program, os.path.join(HERE, "collide.c")], check=True)
    return program


def chosen(program, kind, count, bits):
    """Keys of this kind whose hashes have the same low bits."""
    return subprocess.run([program, kind, str(count), str(bits)], check=True, capture_output=True, text=True).stdout.split()


def write_keys(path, event, keys):
    """Writes an array of one event for each key."""
    with open(path, "w") as trace:
        trace.write("[" + ",\n".join(event(key) for key in keys) + "]")
