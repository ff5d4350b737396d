#!/usr/bin/env python3
"""environment.py: runs the program where what is around it fails, and holds the status and the last line of the report
against what is wanted.

A line is what is done, the status, and the last line of the report. A signal that ends the program stands in the place of
the status. ENF names another program than bin/enf. The status is 1 where a line is other than wanted.
"""
import collections
import os
import pty
import resource
import signal
import subprocess
import sys
import tempfile
import threading

ENF = os.path.abspath(os.environ.get('ENF', 'bin/enf'))
INJECTED = os.path.join(os.path.dirname(os.path.abspath(__file__)), 'injected.py')
LIMIT = 60

SIGNATURE = 'request(text); consent(text); use(text) -; delete(text) +;\n'
POLICY = '''rule erase: forall u. request(u) -> eventually[0,30] delete(u);
rule consent: forall u. use(u) -> once[0,*] consent(u);
'''
LOG = '@4 request("bob");\n@9 consent("eve") use("eve");\n@40;\n'
GIVEN = '@4 request("bob");\n@9 consent("eve") use("eve");\n+34 delete("bob");\n@40;\n'
OWED = 'cause delete("bob") at 34 step 2 rule erase node 1 leaf 2 origin 0 u="bob"'
OWED_AT_ONCE = OWED.replace('step 2', 'step 1')
SAVE = ['--save', 'state']

Case = collections.namedtuple('Case', 'what status last run')
Ended = collections.namedtuple('Ended', 'status output report')


def consents(count, first=0):
    return ''.join('@%d consent("u%07d");\n' % (number + 1, number) for number in range(first, first + count))


class Program:
    """The program in a folder with a signature and a policy."""

    def __init__(self, folder):
        self.folder = folder
        for name, text in (('signature', SIGNATURE), ('policy', POLICY), ('log', LOG), ('stdout', ''), ('stderr', '')):
            self.write(name, text)

    def path(self, name):
        return os.path.join(self.folder, name)

    def write(self, name, text):
        with open(self.path(name), 'w') as file:
            file.write(text)

    def read(self, name):
        with open(self.path(name), errors='replace') as file:
            return file.read()

    def begin(self, more=(), policy='policy', before=None, word='enforce', through=(), **streams):
        """Begins a run. Its output and report go to files where nothing else is said."""
        for name in ('stdout', 'stderr'):
            if name not in streams:
                streams[name] = open(self.path(name), 'w')
        streams.setdefault('stdin', open(self.path('log')))
        command = [*through, ENF, word, 'signature', policy, *more]
        return subprocess.Popen(command, cwd=self.folder, preexec_fn=before, **streams)

    def run(self, *args, **streams):
        return self.ended(self.begin(*args, **streams))

    def ended(self, process):
        return Ended(process.wait(LIMIT), self.read('stdout'), self.read('stderr'))


def closed(stream):
    return lambda: os.close(stream)


def limited(*limits):
    def before():
        for kind, most in limits:
            resource.setrlimit(kind, (most, most))
    return before


# What is done. Each gives how the run ended.

def a_log_that_is_a_folder(program):
    return program.run(stdin=os.open(program.folder, os.O_RDONLY))


def a_log_that_would_block(program):
    reader, writer = os.pipe()
    os.set_blocking(reader, False)
    ended = program.run(stdin=reader)
    os.close(writer)
    return ended


def an_output_that_would_block(program):
    reader, writer = os.pipe()
    os.set_blocking(writer, False)
    try:
        while True:
            os.write(writer, bytes(4096))
    except BlockingIOError:
        pass
    ended = program.run(stdout=writer)
    os.close(reader)
    return ended


def failing(call, stream, times, how, more=()):
    """The first calls of that stream fail so."""
    through = [sys.executable, INJECTED, call, str(stream), str(times), how]
    return lambda program: program.run(more, through=through)


def interrupted(call, stream, times):
    run = failing(call, stream, times, 'EINTR')
    return lambda program: whole(run(program))


def a_log_that_never_ends(program):
    return program.run(stdin=open('/dev/zero'))


def a_terminal(program):
    """The log is typed, and the end of file behind it."""
    outer, inner = pty.openpty()
    process = program.begin(stdin=inner)
    os.close(inner)
    os.write(outer, LOG.encode() + b'\x04')
    ended = program.ended(process)
    os.close(outer)
    return whole(ended)


def byte_by_byte(program):
    process = program.begin(stdin=subprocess.PIPE)
    for byte in LOG.encode():
        process.stdin.write(bytes([byte]))
        process.stdin.flush()
    process.stdin.close()
    return whole(program.ended(process))


def whole(ended):
    """A run whose output is not all that is owed has no status."""
    return ended if ended.output == GIVEN else ended._replace(status='another output')


def a_reader_that_goes_away(program):
    reader, writer = os.pipe()
    os.close(reader)
    ended = program.run(stdout=writer)
    os.close(writer)
    return ended


def into(**files):
    """A run whose streams are these files."""
    return lambda program: program.run(**{name: open(path, 'w') for name, path in files.items()})


def without(stream):
    return lambda program: program.run(before=closed(stream))


def a_policy_that_is(path):
    return lambda program: program.run(policy=path)


def a_policy_from_a_pipe(program):
    os.mkfifo(program.path('pipe'))
    writer = threading.Thread(target=program.write, args=('pipe', POLICY))
    writer.start()
    ended = program.run(policy='pipe')
    writer.join()
    return whole(ended)


def a_state_saved_as(path):
    return lambda program: program.run(['--save', path])


def a_state_above_its_limit(program):
    """A file may have 100,000 bytes, and the signal that says so is taken for a fault, as it is on a full disk."""
    def before():
        signal.signal(signal.SIGXFSZ, signal.SIG_IGN)
        limited((resource.RLIMIT_FSIZE, 100000))()
    program.write('log', consents(20000))
    return program.run(SAVE, before=before, stdout=subprocess.DEVNULL)


def a_state_above_its_limit_by_a_signal(program):
    program.write('log', consents(20000))
    return program.run(SAVE, before=limited((resource.RLIMIT_FSIZE, 100000)), stdout=subprocess.DEVNULL)


def a_state_that_was_cut(program):
    """What a save leaves that is ended in its middle."""
    ended = program.run(SAVE)
    program.write('state', program.read('state')[:-1])
    return program.run(['--resume', 'state']) if ended.status == 0 else ended


def a_state_resumed_and_saved_in_its_place(program):
    ended = program.run(SAVE)
    return program.run(['--resume', 'state', *SAVE], stdin=subprocess.DEVNULL) if ended.status == 0 else ended


def two_that_save_to_one_file(program):
    runs = [program.begin(SAVE) for _ in range(2)]
    for process in runs:
        ended = program.ended(process)
    return program.run(['--resume', 'state'], stdin=subprocess.DEVNULL) if ended.status == 0 else ended


def sent(number):
    """The signal comes while a record is awaited."""
    def run(program):
        process = program.begin(stdin=subprocess.PIPE, stdout=subprocess.PIPE)
        process.stdin.write(b'@4 request("bob");\n')
        process.stdin.flush()
        process.stdout.readline()
        process.send_signal(number)
        if number == signal.SIGSTOP:
            process.send_signal(signal.SIGCONT)
        process.stdin.close()
        process.stdout.read()
        return program.ended(process)
    return run


def with_little_stack(most):
    return lambda program: whole(program.run(before=limited((resource.RLIMIT_STACK, most))))


def nested_with_stack(most):
    """A policy as deep as can be."""
    def run(program):
        program.write('policy', 'rule deep: forall u. use(u) -> %sconsent(u);\n' % ('once[0,*] ' * 37))
        return program.run(before=limited((resource.RLIMIT_STACK, most)))
    return run


def with_little_memory(program):
    """40 MB of addresses, and a log of a million rows that are kept."""
    program.write('log', consents(1000000))
    return program.run(before=limited((resource.RLIMIT_AS, 40000000)), stdout=subprocess.DEVNULL)


CASES = [
    Case('the log is a folder', 4, 'read fault', a_log_that_is_a_folder),
    Case('standard input is closed', 4, 'read fault', without(0)),
    Case('the log would block', 4, 'the log would block: enf reads a stream that waits', a_log_that_would_block),
    Case('the log never ends, and no record in it does', 3, 'record 1: too long', a_log_that_never_ends),
    Case('the log is typed at a terminal', 0, OWED, a_terminal),
    Case('the log comes byte by byte', 0, OWED, byte_by_byte),
    Case('standard output is closed', 5, '', without(1)),
    Case('the output goes to a full disk', 5, '', into(stdout='/dev/full')),
    Case('who reads the output has gone', 5, '', a_reader_that_goes_away),
    Case('the output would block', 5, 'the output would block: enf writes to a stream that waits', an_output_that_would_block),
    Case('standard error is closed', 5, '', without(2)),
    Case('the report goes to a full disk', 5, '', into(stderr='/dev/full')),
    Case('the policy is not there', 4, 'read fault', a_policy_that_is('nowhere')),
    Case('the policy is a folder', 4, 'read fault', a_policy_that_is('.')),
    Case('the policy comes from a named pipe', 0, OWED, a_policy_from_a_pipe),
    Case('the policy never ends', 2, 'policy: too long', a_policy_that_is('/dev/zero')),
    Case('the state goes to a full disk', 5, OWED, a_state_saved_as('/dev/full')),
    Case('the state is to be saved as a folder', 5, OWED, a_state_saved_as('.')),
    Case('the state cannot be synced to its device', 5, OWED, failing('fsync', 0, 1, 'EIO', SAVE)),
    Case('three syncs of the state are interrupted', 0, OWED, failing('fsync', 0, 3, 'EINTR', SAVE)),
    Case('the state goes to what has no device to sync', 0, OWED, a_state_saved_as('/dev/null')),
    Case('the state is longer than a file may be', 5, '', a_state_above_its_limit),
    Case('the same, where the signal is not ignored', -signal.SIGXFSZ, '', a_state_above_its_limit_by_a_signal),
    Case('the state was cut at its end, and is resumed', 2, 'state: syntax at line 5', a_state_that_was_cut),
    Case('the state is resumed and saved under its own name', 0, '', a_state_resumed_and_saved_in_its_place),
    Case('two runs of one log save to one file, which is resumed', 0, '', two_that_save_to_one_file),
    Case('the system gives no random number', 4, 'read fault', failing('getrandom', 0, 9, 'ENOSYS')),
    Case('three draws of a random number are interrupted', 0, OWED, interrupted('getrandom', 0, 3)),
    Case('three reads of the log are interrupted', 0, OWED, interrupted('read', 0, 3)),
    Case('three writes of the output are interrupted', 0, OWED, interrupted('write', 1, 3)),
    Case('three writes of the report are interrupted', 0, OWED, interrupted('write', 2, 3)),
    Case('SIGTERM while a record is awaited', -signal.SIGTERM, '', sent(signal.SIGTERM)),
    Case('SIGSTOP and SIGCONT while a record is awaited', 0, OWED_AT_ONCE, sent(signal.SIGSTOP)),
    Case('256 KB of stack', 0, OWED, with_little_stack(256 * 1024)),
    Case('128 KB of stack', 0, OWED, with_little_stack(128 * 1024)),
    Case('37 nested once, 512 KB of stack', 0, '', nested_with_stack(512 * 1024)),
    Case('37 nested once, 128 KB of stack', -signal.SIGSEGV, '', nested_with_stack(128 * 1024)),
    Case('40 MB of memory, and a million rows to keep', 6, 'no memory', with_little_memory),
]


def main():
    faults = 0
    for case in CASES:
        with tempfile.TemporaryDirectory(prefix='environment-') as folder:
            ended = case.run(Program(folder))
        lines = ended.report.strip().split('\n')
        as_wanted = ended.status == case.status and lines[-1] == case.last
        faults += not as_wanted
        status = ended.status
        if isinstance(status, int) and status < 0:
            status = signal.Signals(-status).name
        print('%-60s %-8s %s%s' % (case.what, status, lines[-1], '' if as_wanted else '   OTHER THAN WANTED'), flush=True)
    print('%d of %d are other than wanted' % (faults, len(CASES)))
    return 1 if faults else 0


sys.exit(main())
