#!/usr/bin/env python3
"""What a reader of code sheets must answer for a damaged sheet, worked out apart from our reader.

  expected_faults.py < SHEET > crates/damaged/stdout

Cuts the sheet at every byte, and puts a blank, a newline, a digit and a letter in the place of each.
"""
import re
import sys

TITLES = [
    b"states commands consoles start display",
    b"command console",
    b"state command next",
    b"state console display",
    b"from to",
]
NUMBER = re.compile(rb"0|[1-9][0-9]{0,4}")
NAME = re.compile(rb"[a-z]{1,8}")


class Fault(Exception):
    pass


class Sheet:
    def __init__(self, data):
        self.data, self.at, self.line, self.block = data, 0, 1, 1

    def fault(self, number, place):
        raise Fault((number, place, self.line, self.block))

    def run(self):
        if self.at == len(self.data):
            self.fault(6, self.at)
        run = re.match(rb"[^ \n]*", self.data[self.at:]).group(0)
        if not run:
            self.fault(3, self.at)
        return run

    def sort(self, run):
        if NUMBER.fullmatch(run):
            return int(run)
        if NAME.fullmatch(run):
            return run
        if run[:1] == b"-" and NUMBER.fullmatch(run[1:]) and run != b"-0":
            return int(run)
        self.fault(3, self.at)

    def behind(self, run, byte):
        end = self.at + len(run)
        if end == len(self.data):
            self.fault(6, end)
        if self.data[end:end + 1] != byte:
            self.fault(4, end)
        self.at = end + 1

    def exactly(self, due, byte):
        run = self.run()
        if self.sort(run) != due:
            self.fault(4, self.at)
        self.behind(run, byte)

    def number(self, least, most, byte):
        run = self.run()
        value = self.sort(run)
        if isinstance(value, bytes):
            self.fault(4, self.at)
        if not least <= value <= most:
            self.fault(5, self.at)
        self.behind(run, byte)
        return value

    def title(self, block):
        self.block = block
        names = TITLES[block - 1].split(b" ")
        for name in names:
            self.exactly(name, b"\n" if name is names[-1] else b" ")
        self.line += 1

    def row(self, exact, most):
        for number in exact:
            self.exactly(number, b" ")
        self.number(0, most, b"\n")
        self.line += 1

    def read(self):
        self.title(1)
        n = self.number(1, 100, b" ")
        m = self.number(1, 24, b" ")
        k = self.number(1, 12, b" ")
        self.number(0, n - 1, b" ")
        self.exactly(b"code", b"\n")
        self.line += 1
        self.title(2)
        for c in range(m):
            self.row([c], k - 1)
        self.title(3)
        for s in range(n):
            for c in range(m):
                self.row([s, c], n - 1)
        self.title(4)
        for s in range(n):
            for u in range(k):
                self.row([s, u], 65535)
        self.title(5)
        last = (-1, -1)
        while self.at < len(self.data):
            first = self.at
            pair = (self.number(0, k - 1, b" "), self.number(0, k - 1, b"\n"))
            if pair[0] == pair[1] or pair <= last:
                self.fault(4, first)
            last = pair
            self.line += 1


def answer(data):
    try:
        Sheet(data).read()
        return "accepted"
    except Fault as fault:
        return " ".join(str(value) for value in fault.args[0])


def main():
    data = sys.stdin.buffer.read()
    for end in range(len(data) + 1):
        print(f"cut {end}: {answer(data[:end])}")
    for at in range(len(data)):
        for byte in b" \n7x":
            print(f"byte {at} {byte}: {answer(data[:at] + bytes([byte]) + data[at + 1:])}")


main()
