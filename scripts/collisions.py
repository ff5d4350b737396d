#!/usr/bin/env python3
"""collisions.py [--seconds] [N]: what logs cost whose values were chosen so that all of them collide in a hash whose seed
is known.

A line is a form of log: what collides, the instructions by callgrind that a log of N such values takes, those of one of
the same form with plain values, how many times that is as much, the bar, and `ok` or `over`. With --seconds it is the
seconds of the processor. The values collide in all 64 bits of the hash of seed 0, which a run of the program does not
have. ENF names another program than bin/enf. N is 16000 where it is not given. The status is 1 where a line is over, or a
run fails.
"""
import os
import random
import re
import resource
import subprocess
import sys
import tempfile

ENF = os.path.abspath(os.environ.get('ENF', 'bin/enf'))
BAR = 1.5
TIMES = 3

WORD = (1 << 64) - 1
STATE = 0x243f6a8885a308d3
KEY = 0x9e3779b97f4a7c15
# What all that collides is hashed to.
TARGET = 0x2545f4914f6cdd1d


# The hash of seed 0.

def folded(a, b):
    product = a * b
    return product & WORD ^ product >> 64


def write_short(state, word, length):
    """The state after up to 8 bytes that make this word."""
    return folded(state ^ word, KEY ^ 2 * length)


def write_word(state, number):
    return write_short(state, number & WORD, 8)


def write_name(state, name):
    return write_short(state, name | name << 32, 4)


def begun_row(length):
    return write_word(STATE, length)


def signed(word):
    return word - (1 << 64) if word >> 63 else word


def last_number(state):
    """The number after which the state is the same for all states."""
    return signed(state ^ TARGET)


# Pairs of numbers, and texts. A value in a row or an event is hashed behind its kind, in a pattern alone.

def row_pairs(count, state):
    for first in range(count):
        before = write_word(write_word(write_word(state, 0), first), 0)
        yield first, last_number(before)


def event_pairs(count):
    return row_pairs(count, write_word(write_name(STATE, 0), 2))


def pattern_pairs(count, name):
    for first in range(count):
        yield first, last_number(write_word(write_name(STATE, name), first))


def plain_pairs(count):
    chosen = random.Random(1)
    return ((first, signed(chosen.getrandbits(64))) for first in range(count))


def texts(count):
    """Texts of 32 bytes: eight are free, the next eight stand still, eight more make up for the free ones."""
    chosen = random.Random(2)
    still = int.from_bytes(b'abcdefgh', 'little')
    begun = write_word(begun_row(1), 1) + 32 & WORD
    found = 0
    while found < count:
        free = b'%08d' % chosen.randrange(10 ** 8)
        state = folded(int.from_bytes(free, 'little') ^ begun, still ^ KEY)
        made_up = (state ^ TARGET).to_bytes(8, 'little')
        # Those of seven bits are enough, and quickly told.
        if int.from_bytes(made_up, 'little') & 0x8080808080808080 == 0:
            found += 1
            yield free + b'abcdefgh' + made_up + b'ijklmnop'


def plain_texts(count):
    chosen = random.Random(3)
    for _ in range(count):
        yield b'%08dabcdefgh' % chosen.randrange(10 ** 8) + bytes(chosen.randrange(1, 128) for _ in range(8)) + b'ijklmnop'


# Logs.

def quoted(text):
    return text.replace(b'\\', b'\\\\').replace(b'"', b'\\"')


def steps(events):
    return b''.join(b'@1 %s;\n' % event for event in events)


def of_pairs(name, pairs):
    return [b'%s(%d,%d)' % (name, first, second) for first, second in pairs]


def of_texts(name, all_texts):
    return [b'%s("%s")' % (name, quoted(text)) for text in all_texts]


def records(events):
    return b''.join(b'@1 %s;\n' % b''.join(events[at:at + 2048]) for at in range(0, len(events), 2048))


def duties(pairs):
    pairs = list(pairs)
    return steps(of_pairs(b'request', pairs)) + steps(of_pairs(b'delete', pairs))


CONSENT = 'rule consent: forall a, b. use(a,b) -> once[0,*] consent(a,b);\n'
VISITED = 'rule visited: forall a. use(a) -> once[0,*] visit(a);\n'
PART = 'rule part: forall a, b. look(a,b) -> exists c. once[0,*] seen(a,b,c);\n'
ERASE = 'rule erase: forall a, b. request(a,b) -> eventually[0,1000000] delete(a,b);\n'


def threes(pairs):
    return [b'seen(%d,%d,0)' % pair for pair in pairs]


def forms(count):
    """Of each form its name, the words, the signature, the policy, and the logs that collide and that do not."""
    rows = begun_row(2)
    return [
        ('rows of two numbers', 'enforce', 'consent(int,int); use(int,int) -;\n', CONSENT,
         steps(of_pairs(b'consent', row_pairs(count, rows))), steps(of_pairs(b'consent', plain_pairs(count)))),
        ('rows of a text', 'enforce', 'visit(text); use(text) -;\n', VISITED,
         steps(of_texts(b'visit', texts(count))), steps(of_texts(b'visit', plain_texts(count)))),
        ('parts of rows', 'enforce', 'seen(int,int,int); look(int,int) -;\n', PART,
         steps(threes(row_pairs(count, rows))), steps(threes(plain_pairs(count)))),
        ('events of a record', 'enforce', 'p(int,int);\n', '',
         records(of_pairs(b'p', event_pairs(count))), records(of_pairs(b'p', plain_pairs(count)))),
        ('duties', 'enforce', 'request(int,int); delete(int,int) +;\n', ERASE,
         duties(pattern_pairs(count, 1)), duties(plain_pairs(count))),
        ('duties of an audit', 'audit', 'request(int,int); delete(int,int) +;\n', ERASE,
         duties(pattern_pairs(count, 1)), duties(plain_pairs(count))),
    ]


def run(folder, log, *command):
    """What a run on the log tells by standard error."""
    with open(os.path.join(folder, 'log'), 'wb') as file:
        file.write(log)
    with open(os.path.join(folder, 'log'), 'rb') as file:
        ended = subprocess.run(command, cwd=folder, stdin=file, stdout=subprocess.DEVNULL, stderr=subprocess.PIPE)
    if ended.returncode != 0:
        sys.exit('%s ends with %d: %s' % (command, ended.returncode, ended.stderr[-200:]))
    return ended.stderr


def seconds(folder, word, log):
    taken = []
    for _ in range(TIMES):
        before = resource.getrusage(resource.RUSAGE_CHILDREN).ru_utime
        run(folder, log, ENF, word, 'signature', 'policy')
        taken.append(resource.getrusage(resource.RUSAGE_CHILDREN).ru_utime - before)
    return min(taken)


def instructions(folder, word, log):
    told = run(folder, log, 'valgrind', '--tool=callgrind', '--callgrind-out-file=/dev/null', ENF, word, 'signature', 'policy')
    return int(re.search(rb'Collected : (\d+)', told).group(1))


def main():
    words = sys.argv[1:]
    cost, unit = (seconds, '%9.3f s') if '--seconds' in words else (instructions, '%12d')
    words = [word for word in words if word != '--seconds']
    count = int(words[0]) if words else 16000
    over = 0
    with tempfile.TemporaryDirectory() as folder:
        for name, word, signature, policy, crafted, plain in forms(count):
            for file_name, text in (('signature', signature), ('policy', policy)):
                with open(os.path.join(folder, file_name), 'w') as file:
                    file.write(text)
            much, few = (cost(folder, word, log) for log in (crafted, plain))
            times = much / few if few else 0
            over += times > BAR
            print('%-20s %6d %s %s %8.2f times %4.1f %s'
                  % (name, count, unit % much, unit % few, times, BAR, 'over' if times > BAR else 'ok'), flush=True)
    return 1 if over else 0


sys.exit(main())
