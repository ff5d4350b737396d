#!/usr/bin/env python3
"""refused.py: runs the program so that each of its requests for memory is refused in turn, alone and with all after it.

A line is a form of the words, how many requests it makes, how many runs were made with one refused, and how many of these
were other than wanted. A run is as wanted where it ends with status 6, the report's last line is `no memory`, the output
has a front of what it has where nothing is refused, in whole lines, the report the lines of the steps given, all but some
of the last one's, no file was written but as a whole, and every block of memory was given back, once. ENF names another
program than bin/enf. The status is 1 where a run is other than wanted.
"""
import collections
import os
import re
import shutil
import subprocess
import sys
import tempfile

ENF = os.path.abspath(os.environ.get('ENF', 'bin/enf'))
ROOT = os.path.dirname(os.path.dirname(os.path.abspath(__file__)))
LIMIT = 60
NO_MEMORY = 6

# Requests from the first that the program itself makes are numbered from 0.
PRELOADED = r'''
#define _GNU_SOURCE
#include <fcntl.h>
#include <stdio.h>
#include <stdlib.h>
#include <string.h>
#include <unistd.h>

extern void *__libc_malloc(size_t);
extern void *__libc_realloc(void *, size_t);
extern void __libc_free(void *);

enum { ROOM = 1 << 20 };
static void *blocks[ROOM];
static long asked, live, wrong, refused = -1;
static int all_after;

static size_t place_of(void *block) { return ((size_t)block >> 4) * 0x9e3779b97f4a7c15u >> 44; }

static void note(void *block) {
    size_t at = place_of(block);
    while (blocks[at] != NULL && blocks[at] != (void *)1) at = (at + 1) % ROOM;
    blocks[at] = block;
    live++;
}

static int forget(void *block) {
    size_t at = place_of(block);
    while (blocks[at] != NULL && blocks[at] != block) at = (at + 1) % ROOM;
    if (blocks[at] == NULL) return wrong++, 0;
    blocks[at] = (void *)1;
    live--;
    return 1;
}

static int is_refused(void) {
    long number = asked++;
    return refused >= 0 && (number == refused || (all_after && number > refused));
}

void *malloc(size_t size) {
    void *block = is_refused() ? NULL : __libc_malloc(size);
    if (block != NULL) note(block);
    return block;
}

void *realloc(void *old, size_t size) {
    if (is_refused()) return NULL;
    if (old != NULL && !forget(old)) return NULL;
    void *block = __libc_realloc(old, size);
    if (block != NULL) note(block); else if (old != NULL) note(old);
    return block;
}

void free(void *block) {
    if (block != NULL && forget(block)) __libc_free(block);
}

static long number_in(const char *name) {
    const char *text = getenv(name);
    return text == NULL ? -1 : atol(text);
}

__attribute__((constructor)) static void begin(void) {
    refused = number_in("REFUSED");
    all_after = number_in("ALL_AFTER") == 1;
    asked = live = 0;
}

__attribute__((destructor)) static void end(void) {
    char line[100];
    const char *name = getenv("TOLD");
    int file = name == NULL ? -1 : open(name, O_WRONLY | O_CREAT | O_TRUNC, 0600);
    int length = snprintf(line, sizeof line, "%ld %ld %ld\n", asked, live, wrong);
    if (file >= 0 && write(file, line, length) != length) _exit(98);
}
'''

Ended = collections.namedtuple('Ended', 'status output report state asked live wrong')


class Program:
    """The program in a folder with its files, before a library that refuses memory."""

    def __init__(self, folder):
        self.folder = folder
        source, self.library = self.path('refusing.c'), self.path('refusing.so')
        with open(source, 'w') as file:
            file.write(PRELOADED)
        subprocess.run(['cc', '-O1', '-shared', '-fPIC', '-o', self.library, source], check=True)
        for name in ('sig', 'policy', 'log'):
            shutil.copy(os.path.join(ROOT, 'examples', 'data', 'data.' + name), self.path(name))
        with open(self.path('log')) as file:
            records = file.readlines()
        for name, part in (('front', records[:len(records) // 2]), ('rest', records[len(records) // 2:])):
            with open(self.path(name), 'w') as file:
                file.writelines(part)
        self.begun = self.run('enforce sig policy --save begun'.split(), log='front').output.count(b'\n')

    def path(self, name):
        return os.path.join(self.folder, name)

    def run(self, words, refused=None, all_after=False, log=None):
        state, told = self.path('state'), self.path('told')
        if os.path.exists(state):
            os.remove(state)
        environment = dict(os.environ, LD_PRELOAD=self.library, TOLD=told)
        if refused is not None:
            environment.update(REFUSED=str(refused), ALL_AFTER='1' if all_after else '0')
        with open(self.path(log or ('rest' if '--resume' in words else 'log')), 'rb') as file:
            done = subprocess.run([ENF] + words, cwd=self.folder, env=environment, stdin=file, capture_output=True, timeout=LIMIT)
        with open(told) as file:
            asked, live, wrong = map(int, file.read().split())
        kept = b''
        if os.path.exists(state):
            with open(state, 'rb') as file:
                kept = file.read()
        return Ended(done.returncode, done.stdout, done.stderr, kept, asked, live, wrong)


def step_of(line):
    """The step that a line of the report is about."""
    return int(re.search(rb' step (\d+) rule ', line).group(1))


def is_front(given, whole):
    return whole.startswith(given) and (not given or given.endswith(b'\n'))


def says_enough(report, wanted, steps):
    """Whether the report has a front of the wanted lines: all of the steps below this one, but for some of the last."""
    lines = wanted.splitlines(keepends=True)
    said = report.splitlines(keepends=True)
    least = sum(1 for line in lines if step_of(line) < steps - 1)
    most = sum(1 for line in lines if step_of(line) < steps)
    return said == lines[:len(said)] and least <= len(said) <= most


def is_as_wanted(ended, whole, words, first):
    if (ended.live, ended.wrong) != (0, 0):
        return False
    if ended.status == whole.status:
        return ended[:4] == whole[:4]
    if ended.status != NO_MEMORY or not ended.report.endswith(b'no memory\n') or not is_front(ended.output, whole.output):
        return False
    if words[0] == 'enforce':
        return says_enough(ended.report[:-len(b'no memory\n')], whole.report, first + ended.output.count(b'\n')) and ended.state in (b'', whole.state)
    return ended.report == b'no memory\n'


def refuse_each(program, words):
    """How many requests a run makes, and how many runs with a refused one were made and were other than wanted."""
    whole = program.run(words)
    if (whole.live, whole.wrong) != (0, 0):
        print('%s: %d blocks were not given back, %d were given back twice' % (' '.join(words), whole.live, whole.wrong))
    runs, others, first = 0, 0, program.begun if '--resume' in words else 0
    for number in range(whole.asked):
        for all_after in (False, True):
            ended = program.run(words, number, all_after)
            runs += 1
            if not is_as_wanted(ended, whole, words, first):
                others += 1
                if others <= 3:
                    print('%s, request %d%s: %s' % (' '.join(words), number, ' and all after' if all_after else '', ended))
    return whole.asked, runs, others


FORMS = [
    'enforce sig policy',
    'enforce sig policy --save state',
    'enforce sig policy --resume begun --save state',
    'check sig policy',
    'audit sig policy',
    'gen 7 5',
    'drill 7 3',
]


def main():
    if shutil.which('cc') is None:
        print('No C compiler is here, with which what refuses memory is made.')
        return 0
    status = 0
    with tempfile.TemporaryDirectory() as folder:
        program = Program(folder)
        for form in FORMS:
            words = form.split()
            asked, runs, others = refuse_each(program, words)
            print('%-40s %6d requests, %6d runs, %d other than wanted' % (form, asked, runs, others), flush=True)
            status |= others > 0
    return status


if __name__ == '__main__':
    sys.exit(main())
