#!/usr/bin/env python3
"""limits.py [WORD ..]: what the most costly policies cost that are accepted, on logs of a few lines, and how long `check`
takes for policies at the limits.

A line is a form of policy with the size of its log, how many answers a run gives and of which kind, what an answer takes:
instructions by callgrind and bytes at the peak, each with its bar, and `ok` or `over`. Where a longer log of the form
needs more than 256 MB, it is run with so many (`ulimit -v`), and has to end with status 6 and `no memory`; the seconds
that this takes stand behind it. A line of `check` is a policy with its seconds, the bar, and the megabytes at the peak.
With words it is the lines whose names have one of them. ENF names another program than bin/enf. The status is 1 where a
line is over, or a run ends otherwise.
"""
import collections
import contextlib
import os
import re
import resource
import subprocess
import sys
import tempfile
import time

ENF = os.path.abspath(os.environ.get('ENF', 'bin/enf'))
ADDRESSES = 256 << 20
LIMIT = 1800
NO_MEMORY = 6
MOST_SECONDS = 1

Form = collections.namedtuple('Form', 'name kind answers signature policy log short long')
Ended = collections.namedtuple('Ended', 'status seconds peak')

# What an answer may take: instructions, and bytes.
BARS = {'rows': (15000, 1500), 'pending': (15000, 1500), 'actions': (50000, 3000)}


# Formulas and logs.

def tree(word, parts):
    """The parts with a word between them, in as few levels as can be."""
    if len(parts) == 1:
        return parts[0]
    half = (len(parts) + 1) // 2
    left = tree(word, parts[:half])
    return '%s %s %s' % ('(%s)' % left if half > 1 else left, word, tree(word, parts[half:]))


def variables(count):
    return ['x%d' % number for number in range(count)]


def each(form, names):
    return [form % name for name in names]


def step(second, *events):
    return '@%d %s;\n' % (second, ' '.join(events))


def values(name, count):
    return each(name + '(%d)', range(count))


def at_once(name):
    """A step with so many events of a name."""
    return lambda count: step(1, *values(name, count))


def ones(count):
    """A step with s, and so many with t."""
    return step(1, 's()') + ''.join(step(number + 2, 't()') for number in range(count))


def threes(count):
    """A step with s, and three in which each of so many values is."""
    return step(1, 's()') + ''.join(step(second, 't()', *values('a', count)) for second in (2, 3, 4))


def remembered(event, count):
    """Values, each in a step of its own, and then so many steps with an event."""
    def log(size):
        rows = ''.join(step(number + 1, 'a(%d)' % number, 'b(%d)' % number) for number in range(size))
        return rows + step(size + 1, event) * count
    return log


# Policies.

SIGNATURE = 's(); t(); a(int); b(int); z(int) -; c(int,int,int,int) +; v() +;\n'
SIXTEEN, FOUR = variables(16), variables(4)


def rule(formula):
    return 'rule r: %s;\n' % formula


def for_all(names, guard, body):
    return rule('forall %s. %s -> %s' % (', '.join(names), guard, body))


def joined(form, more=()):
    """What each of 16 variables is told by alone."""
    return for_all(SIXTEEN, tree('and', each(form, SIXTEEN) + list(more)), 'not z(x0)')


def nested_until(levels):
    formula = 'not z(1) until[0,1000] v()'
    for _ in range(levels - 1):
        formula = '(t() -> %s) until[0,1000] v()' % formula
    return formula


def always_for_each(levels):
    """Each begins the next one for each value of a step."""
    begun = ''.join('always[0,1000] forall %s. a(%s) -> ' % (x, x) for x in variables(levels))
    return 's() -> %snot z(x0)' % begun


def chain(rules):
    """Each of these rules wakes the one before it."""
    return ''.join('rule r%d: forall x. n%d(x) -> n%d(x);\n' % (number, number, number + 1) for number in reversed(range(rules)))


CHAIN_SIGNATURE = ''.join('n%d(int) +;\n' % number for number in range(65))


# How many answers a run gives. Those that are not told by it are reckoned.

def lines_of(name, word):
    def count(program, _):
        with open(program.path(name)) as file:
            return sum(line.startswith(word) for line in file)
    return count


def reckoned(told):
    return lambda _, size: told(size)


ACTIONS = 'actions', lines_of('report', 'cause ')
PENDING = 'pending', lines_of('state', 'due ')


def rows(told):
    return 'rows', reckoned(told)


FORMS = [
    Form('join of 16 events', *rows(lambda n: n ** 16), SIGNATURE, joined('a(%s)'), at_once('a'), 2, 3),
    Form('join of 16 windows', *rows(lambda n: n ** 16), SIGNATURE, joined('once[0,*] a(%s)', ['s()']),
         remembered('s()', 1), 2, 3),
    Form('join of 4 events, an action each', *ACTIONS, SIGNATURE,
         for_all(FOUR, tree('and', each('a(%s)', FOUR)), 'c(x0,x1,x2,x3)'), at_once('a'), 8, 40),
    Form('the same below 34 nested not', *ACTIONS, SIGNATURE,
         for_all(FOUR, tree('and', each('a(%s)', FOUR)), 'not ' * 34 + 'c(x0,x1,x2,x3)'), at_once('a'), 8, None),
    Form('union of 100 windows', *rows(lambda n: 100 * n * 20), SIGNATURE,
         for_all(['x'], 's() and (%s)' % tree('or', each('once[%d,*] a(x)', range(100))), 'not z(x)'),
         remembered('s()', 20), 20, None),
    Form('10 nested always', *PENDING, SIGNATURE, rule('s() -> %s not z(1)' % ('always[0,1000] ' * 10)), ones, 7, 20),
    Form('30 nested always', *PENDING, SIGNATURE, rule('s() -> %s not z(1)' % ('always[0,1000] ' * 30)), ones, 3, 20),
    Form('10 nested until, on the left', *PENDING, SIGNATURE, rule('s() -> ' + nested_until(10)), ones, 7, 20),
    Form('8 nested always, for each value', *PENDING, SIGNATURE, rule(always_for_each(8)), threes, 2, 6),
    Form('34 nested once', *rows(lambda n: 34 * n * (n + 1) // 2), SIGNATURE,
         for_all(['x'], 'z(x)', 'once[0,*] ' * 34 + 'a(x)'), remembered('t()', 1), 80, None),
    Form('since, with all that is kept on the left', *rows(lambda n: n * n // 2), SIGNATURE,
         for_all(['x'], 'z(x)', '(b(x) or exists y. b(y) and once[0,*] a(x)) since[0,*] a(x)'),
         remembered('t()', 1), 150, None),
    Form('64 rules that wake each other', *ACTIONS, CHAIN_SIGNATURE, chain(64), at_once('n0'), 10, None),
    Form('64 rules that wake each other', *ACTIONS, CHAIN_SIGNATURE, chain(64), at_once('n0'), 20, None),
    Form('rows of two windows, an always each', *PENDING, SIGNATURE,
         rule('s() -> always[0,1000] forall x, y. once[0,*] a(x) and once[0,*] b(y) -> always[0,1000] not z(x)'),
         remembered('s()', 6), 15, 200),
    Form('exists over two windows, none found', *rows(lambda n: n * n * 20), SIGNATURE,
         for_all(['x'], 'z(x)', 'exists y, w. once[0,*] a(y) and once[0,*] b(w) and y < w and w < y'),
         remembered('z(1)', 20), 40, None),
]


# Policies whose check is long.

CHECKED_SIGNATURE = 'a(text); b(text,text,text,text,text,text,text,text) -; z(text) -;\n'


def of_rules(formula, count=64):
    return ''.join('rule r%d: %s;\n' % (number, formula) for number in range(count))


def event_of(names):
    return 'b(%s)' % ','.join(names)


def nested_exists(levels, atoms):
    """Each `exists` is the guard of a plan, and all are over the same events."""
    return 'forall x0. not ' + ''.join('exists %s. ' % x for x in variables(levels)[1:]) + '(%s)' % tree('and', atoms)


EIGHTS = [event_of(SIXTEEN[8:])] * 47 + [event_of(SIXTEEN[:8])] * 141
MANY_EXISTS = ['(exists %s. %s)' % (', '.join(each('y%d', range(15))), event_of(each('y%d', range(8))))] * 130

CHECKS = [
    ('check: 64 rules of 188 events below 16 exists', CHECKED_SIGNATURE, of_rules(nested_exists(16, EIGHTS))),
    ('check: 64 rules of 188 events', CHECKED_SIGNATURE,
     of_rules('forall %s. not (%s)' % (', '.join(SIXTEEN), tree('and', EIGHTS)))),
    ('check: 60 rules of 130 exists', CHECKED_SIGNATURE,
     of_rules('forall u. z(u) and %s -> not z(u)' % ('(%s)' % tree('and', MANY_EXISTS)), 60)),
    ('check: a chain of 63 rules over 256 names', ''.join('n%d(int) +;\n' % number for number in reversed(range(256))),
     ''.join('rule r%d: forall x. (%s) -> %s;\n' % (number, tree('or', each('n%d(x)', range(max(0, first - 90), first))),
                                                   tree('and', each('n%d(x)', range(first, min(256, first + 100)))))
             for number, first in enumerate(range(4, 256, 4)))),
]


class Program:
    """The program in a folder with a signature, a policy and a log."""

    def __init__(self, folder, **texts):
        self.folder = folder
        for name, text in texts.items():
            self.write(name, text)

    def path(self, name):
        return os.path.join(self.folder, name)

    def write(self, name, text):
        with open(self.path(name), 'w') as file:
            file.write(text)

    def read(self, name):
        with open(self.path(name)) as file:
            return file.read()

    def run(self, *words, through=(), most=None):
        """A run. Its greatest size is looked for while it runs: what the system tells afterwards is at least that of this
        script."""
        def before():
            if most is not None:
                resource.setrlimit(resource.RLIMIT_AS, (most, most))
        with open(self.path('log')) as log, open(self.path('output'), 'w') as output, open(self.path('report'), 'w') as report:
            process = subprocess.Popen([*through, ENF, *words], cwd=self.folder, stdin=log, stdout=output, stderr=report,
                                       preexec_fn=before)
        end, peak = time.monotonic() + LIMIT, 0
        while os.waitid(os.P_PID, process.pid, os.WEXITED | os.WNOWAIT | os.WNOHANG) is None:
            peak = max(peak, size_of(process.pid))
            if time.monotonic() > end:
                process.kill()
            time.sleep(0.002)
        _, status, used = os.wait4(process.pid, 0)
        return Ended(os.waitstatus_to_exitcode(status), used.ru_utime + used.ru_stime, peak)

    def instructions(self, *words):
        counted = self.path('counted')
        self.run(*words, through=['valgrind', '--tool=callgrind', '--callgrind-out-file=/dev/null', '--log-file=' + counted])
        return int(re.search(r'Collected : (\d+)', self.read('counted')).group(1))


def size_of(process):
    with contextlib.suppress(OSError), open('/proc/%d/status' % process) as lines:
        for line in lines:
            if line.startswith('VmHWM:'):
                return int(line.split()[1]) * 1024
    return 0


def is_over_for(form):
    """Prints the line of a form."""
    words = ['enforce', 'signature', 'policy', '--save', 'state']
    with tempfile.TemporaryDirectory(prefix='limits-') as folder:
        program = Program(folder, signature=form.signature, policy=form.policy, log='')
        base, least = program.instructions(*words), program.run(*words).peak
        program.write('log', form.log(form.short))
        ended = program.run(*words)
        if ended.status != 0:
            print('%-42s status %s: %s' % (form.name, ended.status, program.read('report')[-80:].strip()))
            return True
        count = form.answers(program, form.short)
        instructions = (program.instructions(*words) - base) / count
        size = max(0, ended.peak - least) / count
        refused = ''
        if form.long is not None:
            program.write('log', form.log(form.long))
            ended = program.run(*words, most=ADDRESSES)
            last = program.read('report').strip().split('\n')[-1]
            refused = '   with %d: status %s, %s, %.1f s' % (form.long, ended.status, last, ended.seconds)
        is_over = instructions > BARS[form.kind][0] or size > BARS[form.kind][1]
        is_other = bool(refused) and (ended.status != NO_MEMORY or last != 'no memory')
    print('%-42s %5d %8d %-8s %9d of %6d  %6d B of %5d  %-5s%s'
          % (form.name, form.short, count, form.kind, instructions, BARS[form.kind][0], size, BARS[form.kind][1],
             'over' if is_over else 'ok', refused + ('   OTHER THAN WANTED' if is_other else '')), flush=True)
    return is_over or is_other


def is_over_for_check(name, signature, policy):
    """Prints the line of a policy that is checked."""
    with tempfile.TemporaryDirectory(prefix='limits-') as folder:
        program = Program(folder, signature=signature, policy=policy, log='')
        ended = program.run('check', 'signature', 'policy')
        is_over = ended.seconds > MOST_SECONDS or ended.status != 0
        print('%-50s %6.2f s of %d  %5d MB  %s%s'
              % (name, ended.seconds, MOST_SECONDS, ended.peak >> 20, 'over' if is_over else 'ok',
                 '   status %d: %s' % (ended.status, program.read('report').strip()) if ended.status else ''), flush=True)
    return is_over


def main():
    words = sys.argv[1:]

    def is_meant(name):
        return not words or any(word in name for word in words)
    over = [is_over_for(form) for form in FORMS if is_meant(form.name)]
    over += [is_over_for_check(*check) for check in CHECKS if is_meant(check[0])]
    print('%d of %d are over' % (sum(over), len(over)))
    return 1 if any(over) else 0


sys.exit(main())
