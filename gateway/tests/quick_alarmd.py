#!/usr/bin/python3
"""A stand-in for alarmd that answers at once: each scan with so many OUT lines as its only input says, each order with O3."""

import os

rest = b""
while data := os.read(0, 65_536):
    *lines, rest = (rest + data).split(b"\n")
    answers = []
    for line in lines:
        if line == b"scan 4000000000001":
            answers.append(b"REFUSED E2\n")
        elif line.startswith(b"scan "):
            moment, *given = line.split()[1:]
            count = int(given[0].partition(b"=")[2]) if given else 0
            answers += [b"OUT %s ratio %d\n" % (moment, number) for number in range(count)]
            answers.append(b"DONE %s %d\n" % (moment, count))
        else:
            answers.append(b"REPLY O3\n")
    answer = b"".join(answers)
    while answer:
        answer = answer[os.write(1, answer) :]
