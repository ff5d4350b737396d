#!/usr/bin/env python3
"""bars.py [--fast] [NAME]..: what a step costs that must not grow with what is remembered or pending.

A line is a figure: its name, what is measured, n, the cost at n and at 2n (beside open duties at 10n), how many times that
is as much, the bar, and `ok` or `over`. `in all` is a log less an empty one; `a step` is a log with more steps behind it,
less that log, by their number. Where one cost stands alone the bar is of it. Costs are instructions, by callgrind, where
they are not said to be bytes or writes.

NAME is a row, the part of a figure's name before the dot; --fast takes a tenth of each n. ENF names another program than
bin/enf. Figures that are over are counted at the end, and do not fail; the status is 1 where a run fails, or makes
other changes than its log wants.
"""
import atexit
import collections
import contextlib
import fcntl
import functools
import os
import re
import shutil
import signal
import subprocess
import sys
import tempfile
import termios
import time

IN_ALL = 2.3
A_STEP = 1.2
# The seconds after which a run is ended, which is over.
LIMIT = 600
ENF = os.path.abspath(os.environ['ENF']) if 'ENF' in os.environ else 'bin/enf'

SIGNATURE = '''ping(); request(text); revoke(text); consent(text); agreed(text,text); collect(text,text); lock(text); closed(text);
login(text,text); logout(text); visit(text); seen(text,int); p(int,int); q(int,int); breach(int);
use(text) -; call(text,text) -; share(text,text) -; read(text,int) -;
hit() +; alarm() +; erase(text,text) +; delete(text) +; unlock(text) +; report(int) +;
'''


def read(name):
    with open(name) as file:
        return file.read()


def twelve(count=0):
    """The signature, the policy and the log of scripts/twelve.sh."""
    with tempfile.TemporaryDirectory() as folder:
        subprocess.run(['bash', '-c', '. scripts/twelve.sh; write_twelve "$0" "$1"', folder, str(count)], check=True)
        return [read(os.path.join(folder, name)) for name in ('personal', 'twelve', 'twelve.log')]


@functools.cache
def steady():
    """The words of scripts/steady.sh, which lays its library into a folder that goes at the end."""
    folder = tempfile.mkdtemp(prefix='steady-')
    atexit.register(shutil.rmtree, folder)
    return subprocess.run(['bash', '-c', '. scripts/steady.sh; steady "$0"', folder], check=True, text=True,
                          stdout=subprocess.PIPE).stdout.split()


os.chdir(os.path.join(os.path.dirname(os.path.abspath(__file__)), '..'))
PERSONAL, TWELVE, _ = twelve()
GENERATED = read('tests/generated/generated.sig')


# Logs, as their lines.

def user(number):
    return '"u%06d"' % number


def mixed(n):
    """The numbers below n in an order that neither rises nor falls."""
    factor = 7919 if n % 7919 else 7907
    return [(number * factor + 13) % n for number in range(n)]


def events_of(pattern, n):
    """An event for each number below n, U a user and N a number of its own."""
    return [pattern.replace('U', user(number)).replace('N', str(1000 + number)) for number in mixed(n)]


def each(pattern):
    """A record for each of n."""
    return lambda n: ['@%d %s;\n' % (1 + place, events) for place, events in enumerate(events_of(pattern, n))]


def at_one_time(pattern, *behind):
    """A record for each of n, all at one time."""
    return lambda n: ['@1 %s;\n' % events for events in events_of(pattern, n)] + list(behind)


def in_one_record(pattern, *behind):
    return lambda n: ['@1 %s;\n' % ' '.join(events_of(pattern, n))] + list(behind)


def in_records(pattern, apart):
    """n events in records of up to 1,000, so many units apart."""
    def log(n):
        events = events_of(pattern, n)
        width = min(1000, n // 10)
        return ['@%d %s;\n' % (1 + apart * (first // width), ' '.join(events[first:first + width]))
                for first in range(0, n, width)]
    return log


def one_user(gap, part=1):
    """Steps of one user, so many units apart, in number n times a part."""
    return lambda n: ('@%d consent("ann");\n' % (1 + step * gap(n)) for step in range(int(n * part)))


def joined(matching):
    """One record of n events of each of two names, each of which meets one of the other, or none."""
    def log(n):
        left = ['p(%d,%d)' % (place, number) for place, number in enumerate(mixed(n))]
        right = ['q(%d,%d)' % (number if matching else n + number, place) for place, number in enumerate(mixed(n))]
        return ['@1 %s %s;\n' % (' '.join(left), ' '.join(right))]
    return log


def requests_then_uses(n):
    return ['@1 %s;\n' % ' '.join(events_of('request(U)', n)), '@2 %s;\n' % ' '.join(events_of('use(U)', n))]


def requests_then_deletions(n):
    deletions = enumerate(events_of('delete(U)', n))
    return each('request(U)')(n) + ['@%d %s;\n' % (1 + n + place, event) for place, event in deletions]


def of_seconds(seconds, rate, order=range):
    """So many events a second, each a row of its own, in an order of the numbers below."""
    return ('@%d %s;\n' % (1 + second, ' '.join('seen(%s,%d)' % (user(number), second) for number in order(rate)))
            for second in range(seconds))


def of_long_ids(n):
    return ('@%d request("%08x-0000-4000-8000-%012x");\n' % (1 + number, number * 2654435761 % 4294967296, number)
            for number in range(n))


def generated(n):
    return subprocess.run([ENF, 'gen', '1', str(n)], stdout=subprocess.PIPE, check=True, text=True).stdout.splitlines(True)


def steps_behind(pattern, n, count, at):
    """Steps behind a log of n, U and N those of the log, all different while there are enough, V a user of no log."""
    for step in range(count):
        number = step * n // count if count <= n else step % n
        events = pattern.replace('U', user(number)).replace('N', str(1000 + number)).replace('V', '"v%06d"' % step)
        yield '@%d %s;\n' % (at(n, step), events)


# Runs.

class Failed(Exception):
    """A run that does not do what it should."""


class TooLong(Exception):
    """A run that was ended at the limit."""


Run = collections.namedtuple('Run', 'peak reads writes report')
# The greatest resident size of a run up to the end of its input, and in all.
Sizes = collections.namedtuple('Sizes', 'at_end in_all')
# One cost where there is no second. The bar is of the second over the first, or of the one.
Figure = collections.namedtuple('Figure', 'part unit n first second bar')


def told(pid, file, name):
    """A number that /proc tells of a process, or 0 where it tells none."""
    with contextlib.suppress(OSError), open('/proc/%d/%s' % (pid, file)) as lines:
        for line in lines:
            if line.startswith(name + ':'):
                return int(line.split()[1])
    return 0


def state_of(pid):
    """The letter by which /proc tells what a process does: S where it waits for something, Z where it has ended."""
    with open('/proc/%d/stat' % pid) as line:
        return line.read().rsplit(')', 1)[1].split()[0]


def is_at_end(pid, pipe):
    """Whether a process has read all that was written to a pipe, and waits for more, or has ended."""
    state = state_of(pid)
    return state == 'Z' or (state == 'S' and fcntl.ioctl(pipe, termios.FIONREAD, bytes(4)) == bytes(4))


class Row:
    """A policy with the figures that a function makes of it."""

    def __init__(self, name, policy, figures, n=1000, signature=SIGNATURE):
        self.name, self.figures, self.n = name, figures, n
        self.texts = {'signature': signature, 'policy': policy}

    def measure(self, n):
        with tempfile.TemporaryDirectory(prefix='bars-') as self.folder:
            for name, text in self.texts.items():
                self.write(name, [text])
            yield from self.figures(self, n)

    def path(self, name):
        return os.path.join(self.folder, name)

    def write(self, name, lines):
        with open(self.path(name), 'w') as file:
            file.writelines(lines)

    def read(self, name):
        return read(self.path(name))

    def begin(self, given, word='enforce', more=(), before=()):
        """A process that reads what is given, and the time at which it is ended."""
        command = [*before, ENF, word, self.path('signature'), self.path('policy'), *more]
        with open(self.path('output'), 'w') as output, open(self.path('report'), 'w') as report:
            return subprocess.Popen(command, stdin=given, stdout=output, stderr=report), time.monotonic() + LIMIT

    def end(self, process, end):
        """Waits for the end of a process, and says what it took. Its greatest resident size is looked for while it runs:
        what the system tells afterwards is at least that of this script."""
        peak = 0
        while os.waitid(os.P_PID, process.pid, os.WEXITED | os.WNOWAIT | os.WNOHANG) is None:
            peak = max(peak, told(process.pid, 'status', 'VmHWM'))
            if time.monotonic() > end:
                process.kill()
            time.sleep(0.005)
        calls = [told(process.pid, 'io', name) for name in ('syscr', 'syscw')]
        status = process.wait()
        if status == -signal.SIGKILL:
            raise TooLong()
        if status != 0:
            raise Failed('status %d: %s' % (status, self.read('report').strip().split('\n')[-1]))
        return Run(peak * 1024, *calls, self.read('report'))

    def run(self, log, word='enforce', more=(), before=()):
        """A run on a log."""
        self.write('log', log)
        with open(self.path('log')) as given:
            return self.end(*self.begin(given, word, more, before))

    def sizes(self, log):
        """The sizes of a run on a log that comes through a pipe, which is closed when all is read and done."""
        process, end = self.begin(subprocess.PIPE)
        at_end = 0
        with contextlib.suppress(BrokenPipeError), process.stdin as pipe:
            pipe.writelines(line.encode() for line in log)
            pipe.flush()
            while not is_at_end(process.pid, pipe):
                if time.monotonic() > end:
                    process.kill()
                time.sleep(0.005)
            at_end = told(process.pid, 'status', 'VmHWM') * 1024
        return Sizes(at_end, self.end(process, end).peak)

    def cost(self, log, changes=None, word='enforce', more=()):
        """The instructions of a run that makes so many changes."""
        counted = self.path('counted')
        callgrind = ['valgrind', '--tool=callgrind', '--callgrind-out-file=/dev/null', '--log-file=' + counted]
        made = self.run(log, word, more, [*steady(), *callgrind]).report.count('\n')
        if changes is not None and made != changes:
            raise Failed('%d changes where %d are due' % (made, changes))
        return int(re.search('Collected : ([0-9]+)', self.read('counted')).group(1))


# What rows measure.

def late(_, step):
    """The time of a step behind a log: after all of it, before all deadlines."""
    return 400000 + step


def costs_of_steps(row, base, sizes, steps, changes, at, count, more=()):
    """The costs of the logs of two sizes, and of each kind of steps behind them, (events, changes of each) by its name."""
    alone = [row.cost(base(size), changes(size), more=more) for size in sizes]
    yield None, alone
    for kind, (events, made) in steps.items():
        both = [row.cost([*base(size), *steps_behind(events, size, count, at)], changes(size) + count * made, more=more)
                for size in sizes]
        yield kind, [(cost - first) / count for cost, first in zip(both, alone)]


def growth(base, steps=(), changes=lambda n: 0, at=late):
    """What n take in all, and each of a hundred steps behind them."""
    def figures(row, n):
        empty = row.cost([], 0)
        for kind, (first, second) in costs_of_steps(row, base, (n, 2 * n), dict(steps), changes, at, 100):
            if kind is None:
                yield Figure('', 'in all', n, first - empty, second - empty, IN_ALL)
            else:
                yield Figure('.' + kind, 'a step', n, first, second, A_STEP)
    return figures


def beside(base, steps, at=late):
    """What each of twenty steps takes beside n and 10n open duties, which are saved and so not served at the end."""
    def figures(row, n):
        saved = ['--save', row.path('state')]
        for kind, costs in costs_of_steps(row, base, (n, 10 * n), steps, lambda n: 0, at, 20, saved):
            if kind is not None:
                yield Figure('.' + kind, 'a step, 10n', n, *costs, A_STEP)
    return figures


def audited(row, n):
    """What auditing takes of n requests and then n deletions, and against enforcing them."""
    sizes = (n, 2 * n)
    audits = [row.cost(requests_then_deletions(size), word='audit') for size in sizes]
    yield Figure('', 'in all', n, *audits, IN_ALL)
    yield Figure('.enforced', 'over enforce', 2 * n, row.cost(requests_then_deletions(2 * n), 0), audits[1], 3)


def audited_again(row, n):
    """What auditing takes of what is emitted for n records, against enforcing them."""
    enforced = row.cost(twelve(n)[2])
    yield Figure('.enforced', 'over enforce', n, enforced, row.cost([row.read('output')], word='audit'), 3)


def memory(base):
    """The greatest resident size for n steps, and for 2n."""
    def figures(row, n):
        yield Figure('', 'bytes', n, *(row.run(base(size)).peak for size in (n, 2 * n)), A_STEP)
    return figures


def memory_of_one(base, unit, bar, count=1):
    """The greatest resident size by what is held, of which n steps have so many each."""
    def figures(row, n):
        yield Figure('', 'bytes ' + unit, n, row.run(base(n)).peak / (n * count), None, bar)
    return figures


def memory_of_duties(row, n):
    """The greatest resident size by the duties that n steps leave open: before the end of the log, and when all that is
    owed at the end is made before it is written."""
    sizes = row.sizes(of_long_ids(n))
    yield Figure('', 'bytes a duty', n, sizes.at_end / n, None, 620)
    yield Figure('.drained', 'bytes a duty', n, sizes.in_all / n, None, 850)


def rows_of_an_hour(order):
    """What each row takes of n a second in the second hour, in which as many go as come."""
    def figures(row, n):
        one, two = (row.cost(of_seconds(3601 * hours, n, order), 0) for hours in (1, 2))
        yield Figure('', 'a row', n, (two - one) / (3601 * n), None, 2500)
    return figures


def writes(log):
    """The calls that write, where each read, each changed record and each line of the report allows one."""
    def figures(row, n):
        empty, run = row.run([]), row.run(log(n))
        changed = len(set(re.findall(r' step ([0-9]+) rule ', run.report)))
        allowed = run.reads - empty.reads + changed + run.report.count('\n')
        yield Figure('', 'writes', n, run.writes - empty.writes, None, allowed)
    return figures


def lines_of_states(row, n):
    """What a line takes to be read, judged and taken up, and to be written, of a state of n rows and n duties. At the end
    of a run that does not save the duties ask for nothing."""
    state, again = row.path('state'), row.path('again')
    row.run(each('consent(U) request(U)')(n), more=['--save', state])
    none = row.cost([], 0)
    taken_up = row.cost([], 0, more=['--resume', state])
    saved = row.cost([], 0, more=['--resume', state, '--save', again])
    if row.read('state') != row.read('again'):
        raise Failed('the state that was saved is another than the one that was resumed')
    yield Figure('.read', 'a line', 2 * n, (taken_up - none) / (2 * n), None, 2500)
    yield Figure('.written', 'a line', 2 * n, (saved - taken_up) / (2 * n), None, 3000)


def rules(*formulas):
    return ''.join('rule r%d: %s;\n' % (place, formula) for place, formula in enumerate(formulas))


def duty(name, formula, begins, steps, apart=1, at=late, behind=()):
    """A row of open duties, begun by such events in records so many units apart, with more lines behind these."""
    return Row(name, rules(formula), beside(lambda n: in_records(begins, apart)(n) + list(behind), {'ping': PING, **steps}, at),
               n=10000)


CONSENT = 'forall u. use(u) -> once[0,*] consent(u)'
ERASE = 'forall u. request(u) -> eventually[0,30] delete(u)'
PING = ('ping()', 0)
ASKED = {'ping': PING, 'known': ('use(U)', 0), 'stranger': ('use(V)', 1)}
COLLECTED = {'ping': PING, 'known': ('request(U)', 1), 'stranger': ('request(V)', 0)}
FAR = rules('forall u. use(u) -> once[1000000,2000000] consent(u)')
HOUR = rules('forall u, x. read(u,x) -> once[0,3600] seen(u,x)')
JOIN = rules('forall x, y, z. p(x,y) and q(y,z) -> hit()')

# A record has at most 2,048 events, so 2n are at most these.

TOUCHED = [
    Row('since-left', rules('forall u, s. call(u,s) -> (not logout(u)) since[0,*] login(u,s)'),
        growth(each('login(U,"s")'), {'ping': PING, 'call': ('call(U,"s")', 0), 'logout': ('logout(U)', 0),
                                      'stranger': ('call(V,"s")', 1)})),
    Row('whole-row', rules(CONSENT), growth(each('consent(U)'), ASKED)),
    Row('guard-bare', rules('forall u. once[0,*] consent(u) -> not use(u)'),
        growth(each('consent(U)'), {'ping': PING, 'barred': ('use(U)', 1), 'free': ('use(V)', 0)})),
    Row('guard-window-first', rules('forall u, p. once[0,*] collect(u,p) and request(u) -> erase(u,p)'),
        growth(each('collect(U,"mail")'), COLLECTED)),
    Row('guard-event-first', rules('forall u, p. request(u) and once[0,*] collect(u,p) -> erase(u,p)'),
        growth(each('collect(U,"mail")'), COLLECTED)),
    Row('exists', rules('forall u. use(u) -> exists p. once[0,*] collect(u,p)'), growth(each('collect(U,"mail")'), ASKED)),
    Row('exists-one-user', rules('forall u. use(u) -> exists p. once[0,*] collect(u,p)'),
        growth(each('collect("ann",U)'), {'known': ('use("ann")', 0)})),
    Row('forall-test', rules('forall u. use(u) -> forall p. (once[0,*] collect(u,p) -> once[0,*] agreed(u,p))'),
        growth(each('collect(U,"mail") agreed(U,"mail")'),
               {'ping': PING, 'agreed': ('use(U)', 0), 'not-agreed': ('collect(V,"mail") use(V)', 1)})),
    Row('prev-once', rules('forall u. use(u) -> prev[0,*] once[0,*] consent(u)'), growth(each('consent(U)'), ASKED)),
    Row('prev-part', rules('forall u, p. request(u) and prev[0,*] once[0,*] collect(u,p) -> erase(u,p)'),
        growth(each('collect(U,"mail")'), COLLECTED)),
    Row('prev-exists', rules('forall u. use(u) -> exists p. prev[0,*] once[0,*] collect(u,p)'),
        growth(each('collect(U,"mail")'), {'ping': PING, 'known': ('use(U)', 0)})),
    Row('once-once', rules('forall u. use(u) -> once[0,*] once[0,*] consent(u)'), growth(each('consent(U)'), ASKED)),
    Row('join', JOIN, growth(joined(True), changes=lambda n: 1), n=500),
    Row('join-none', JOIN, growth(joined(False)), n=500),
    Row('suppressed', rules(CONSENT), growth(in_one_record('use(U)'), changes=lambda n: n)),
    # n times are younger than the window, and one comes into it at each step.
    Row('window-far', FAR, growth(one_user(lambda n: 1000000 // n, 1.5),
                                  {'ping': PING, 'used': ('consent("ann") use("ann")', 0)},
                                  at=lambda n, step: 1 + (n + n // 2 + step) * (1000000 // n))),
    Row('window-far-memory', FAR, memory(one_user(lambda n: 1000)), n=500000),
    Row('window-long-memory', rules('forall u. use(u) -> once[0,1000000000] consent(u)'), memory(one_user(lambda n: 1)),
        n=500000),
    Row('hour', HOUR, rows_of_an_hour(range), n=100),
    Row('hour-mixed', HOUR, rows_of_an_hour(mixed), n=100),
    # Two hours, so that rows go as well; those of one are kept.
    Row('hour-memory', HOUR, memory_of_one(lambda n: of_seconds(7300, n), 'a row', 200, 3600)),
    Row('audit-open', rules('forall u. request(u) -> eventually[0,1000000] delete(u)'), audited),
    Row('audit-twelve', TWELVE, audited_again, n=5000, signature=PERSONAL),
]

WOKEN = [
    Row('realistic', TWELVE, growth(at_one_time('request(U)', '>100;\n'), changes=lambda n: 2 * n), signature=PERSONAL),
    Row('erase-beside', rules(ERASE, 'forall u. use(u) -> not once[0,*] delete(u)'),
        growth(in_one_record('request(U)', '>100;\n'), changes=lambda n: n)),
    Row('taken-out-beside', rules('forall u. request(u) -> always[0,30] not use(u)',
                                  'forall u. use(u) and once[0,*] revoke(u) -> alarm()'),
        growth(requests_then_uses, changes=lambda n: n)),
    Row('twelve-uses', TWELVE, growth(in_one_record('use(U,"mail")'), changes=lambda n: n), signature=PERSONAL),
    duty('ends-now-eventually', ERASE, 'request(U)', {'deleted': ('delete(U)', 0)}, 0, lambda n, step: 31),
    # The record at 2 is the first that finds the windows begun, which each costs something once.
    duty('ends-now-always', 'forall u. request(u) -> always[1,30] not use(u)', 'request(U)', {'used': ('use(U)', 1)}, 0,
         lambda n, step: 31, ['@2 ping();\n']),
    duty('always', 'forall u. request(u) -> always[0,1000000] not use(u)', 'request(U)', {'used': ('use(U)', 1)}),
    duty('constant-goal', 'forall n. breach(n) -> eventually[0,1000000] (n < 100 or report(n))', 'breach(N)',
         {'reported': ('report(N)', 0)}),
    duty('later-eventually-not', 'forall u. request(u) -> eventually[500000,1000000] not use(u)', 'request(U)',
         {'used': ('use(U)', 0)}),
    duty('later-eventually', 'forall u. request(u) -> eventually[500000,1000000] delete(u)', 'request(U)',
         {'deleted': ('delete(U)', 0)}),
    duty('later-always', 'forall u. request(u) -> always[500000,1000000] not use(u)', 'request(U)', {'used': ('use(U)', 0)}),
    duty('past-goal-eventually', 'forall u. request(u) -> eventually[0,1000000] ((once[0,*] revoke(u)) or delete(u))',
         'request(U)', {'revoked': ('revoke(U)', 0), 'deleted': ('delete(U)', 0)}),
    duty('past-goal-within', 'forall u. request(u) -> eventually[0,1000000] ((once[0,500000] revoke(u)) or delete(u))',
         'request(U)', {'revoked': ('revoke(U)', 0)}),
    duty('past-goal-until', 'forall u. lock(u) -> (not use(u)) until[0,1000000] ((once[0,*] closed(u)) or unlock(u))',
         'lock(U)', {'closed': ('closed(U)', 0), 'used': ('use(U)', 1)}),
    duty('narrow-eventually', 'forall u. request(u) -> eventually[0,1000000] (alarm() and delete(u))', 'request(U)',
         {'alarm': ('alarm()', 0), 'ended': ('alarm() delete(U)', 0)}),
    duty('narrow-always', 'forall u. request(u) -> always[0,1000000] forall x. visit(x) -> not share(u,x)', 'request(U)',
         {'visit': ('visit(V)', 0), 'shared': ('visit(V) share(U,V)', 1)}),
    Row('duty-memory', rules('forall u. request(u) -> eventually[0,1000000] delete(u)'), memory_of_duties, n=600000),
    Row('state', rules(CONSENT, 'forall u. request(u) -> always[0,1000000] not use(u)'), lines_of_states, n=100000),
    Row('writes-none', '', writes(generated), n=20000, signature=GENERATED),
    Row('writes-one', read('tests/generated/generated.policy'), writes(generated), n=20000, signature=GENERATED),
    Row('writes-twelve', TWELVE, writes(lambda n: [twelve(n)[2]]), n=20000, signature=PERSONAL),
]


# Lines.

def show(row, figure):
    """Prints a figure, and says whether it is over."""
    if figure.second is None:
        second, times, bar, is_over = '-', '-', '{:,}'.format(figure.bar), figure.first > figure.bar
    else:
        grown = figure.second / figure.first if figure.first > 0 else float('inf')
        second, times, bar, is_over = '{:,.0f}'.format(figure.second), '%.2f' % grown, str(figure.bar), grown > figure.bar
    print('%-30s %-12s n %-9s %15s %15s %7s %7s  %s' % (
        row.name + figure.part, figure.unit, '{:,}'.format(figure.n), '{:,.0f}'.format(figure.first), second, times, bar,
        'over' if is_over else 'ok'), flush=True)
    return is_over


def is_proved():
    return subprocess.run(['bash', '-c', '. scripts/enf.sh; is_proved']).returncode == 0


def main(words):
    names = [word for word in words if word != '--fast']
    if 'ENF' not in os.environ and not is_proved():
        sys.exit("bin/enf is not there or was built from other sources; 'make build' makes it")
    if shutil.which('valgrind') is None:
        sys.exit('valgrind is wanted, and is not here')
    shown = over = faults = 0
    for title, rows in (('What a step touches', TOUCHED), ('What a step wakes', WOKEN)):
        print('== ' + title)
        for row in rows:
            if names and row.name not in names:
                continue
            try:
                for figure in row.measure(row.n // 10 if '--fast' in words else row.n):
                    shown += 1
                    over += show(row, figure)
            except TooLong:
                shown += 1
                over += 1
                print('%-30s over: a run took more than %d seconds' % (row.name, LIMIT), flush=True)
            except Failed as failed:
                faults += 1
                print('%-30s FAULT: %s' % (row.name, failed), flush=True)
    print('%d of %d figures are over their bars' % (over, shown))
    return 1 if faults else 0


sys.exit(main(sys.argv[1:]))
