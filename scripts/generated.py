#!/usr/bin/env python3
"""generated.py START N prints the log that `enf gen START N` has to give. It is written from docs/FORMATS.md alone, and the
bytes that tests of `gen` want come from it."""
import sys

STATE, STEPS, TIME = int(sys.argv[1]), int(sys.argv[2]), 0
NAMES = ['request', 'consent', 'use', 'delete', 'lock']


def draw():
    global STATE
    STATE = (STATE * 1103515245 + 12345) % 2147483648
    return STATE // 65536


for _ in range(STEPS):
    TIME += draw() % 8
    events = [(NAMES[draw() % 5], draw() % 16) for _ in range(draw() % 4)]
    print('@%d%s;' % (TIME, ''.join(' %s("u%d")' % event for event in dict.fromkeys(events))))
