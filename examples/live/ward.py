#!/usr/bin/env python3
"""A ward, a doctor and an office that talk through a dispatcher in another process.

examples/live/ward.py PROGRAM..   PROGRAM answers a script as it comes: ./defcon live

Each call is written as a line, and answered by an entry before the next is read. Its first line tells
the reply. The lines below it don't begin with a digit, and are passed over here.
"""
import subprocess
import sys

START = ["defcon-script 1", "unit 0 {|}", "unit 1 {#0|}", "unit 2 {|}", "run"]


class Dispatcher:
    def __init__(self, program):
        self.pipe = subprocess.Popen(program, stdin=subprocess.PIPE, stdout=subprocess.PIPE, text=True, bufsize=1)
        self.pipe.stdin.write("".join(line + "\n" for line in START))
        self.pipe.stdin.flush()
        while self.pipe.stdout.readline() != "run\n":
            pass

    def call(self, unit, words):
        """The reply to a call."""
        self.pipe.stdin.write(f"{unit} {words}\n")
        self.pipe.stdin.flush()
        line = self.pipe.stdout.readline()
        while not line[:1].isdigit():
            line = self.pipe.stdout.readline()
        return line.rstrip("\n").split(" -> ", 1)[1]

    def end(self):
        self.pipe.stdin.close()
        self.pipe.stdout.read()
        return self.pipe.wait()


def main():
    unit = Dispatcher(sys.argv[1:])
    for reader in (1, 2):
        assert unit.call(reader, "sub bed?") == "sub 0"
    assert unit.call(0, "create") == "handle 0"
    assert unit.call(0, "add 0 {|} bed 12") == "ok"
    assert unit.call(0, 'add 0 {#0|} diagnosis "measles"') == "ok"
    assert unit.call(0, "publish 0") == "ok"
    for reader, name in ((1, "doctor"), (2, "office")):
        assert unit.call(reader, "get") == "event 0 0"
        print(f"{name} reads: {unit.call(reader, 'read 0 diagnosis')}")
    sys.exit(unit.end())


main()
