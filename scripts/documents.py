#!/usr/bin/env python3
"""Holds what the documents show against the program: bin/enf, or the one that ENF names.

policies: runs the policies and logs of docs/POLICIES.md and tests/policies.md and compares what comes with what the page
has. Where one of them is a case of enf_cases too, which the gate runs, its answer there has to be the same. `policies
--show` prints the blocks with what comes, `policies --print` prints them as cases.
recipes: runs the commands of README.md and docs/USING.md on the files of examples/, and compares what they write with
what follows them."""
import os
import re
import shutil
import subprocess
import sys
import tempfile

ENF = os.path.abspath(os.environ.get('ENF', 'bin/enf'))
PAGES = ('docs/POLICIES.md', 'tests/policies.md')
SEPARATOR = '\\x01'
WANTED = ' => '
LINE_FEED = '\\x0a'
TOLD = (': ', '> ', '= ', '- ', '+ ')
# What an action looks like in the answer of a case.
ACTION = re.compile(r'[+-]\w+\((?:[^()"]|"[^"]*")*\)/\d+ ')


def read(name):
    with open(name, encoding='utf-8') as file:
        return file.read()


def blocks(text):
    """The fenced blocks of a document: the words after the fence, and the text."""
    return [(found.group(1).split(), found.group(2)) for found in re.finditer(r'^```(.*)\n((?:.*\n)*?)```$', text, re.M)]


def pieces(text):
    """The pieces of a block: lines of a policy or a signature, and the lines after them that say what comes."""
    found = [([], [])]
    for line in text.splitlines():
        if line[:2] in TOLD:
            found[-1][1].append(line)
        else:
            if found[-1][1]:
                found.append(([], []))
            found[-1][0].append(line)
    return found


def parts(page):
    """What a page has in its blocks: the signature, the lines of a policy, and the lines that say what comes. A signature
    holds for the blocks after it, but where the page says what comes: such a one is refused."""
    signature = []
    for words, text in blocks(read(page)):
        for body, told in pieces(text):
            if words == ['signature'] and not told:
                signature = body
            elif words == ['signature']:
                yield body, [], told
            elif not words:
                yield signature, body, told


class Trial:
    """A signature and a policy, in files for the program."""

    def __init__(self, folder, signature, policy):
        self.signature, self.policy = f'{folder}/signature', f'{folder}/policy'
        for name, lines in ((self.signature, signature), (self.policy, policy)):
            with open(name, 'w', encoding='utf-8') as file:
                file.writelines(f'{line}\n' for line in lines)

    def run(self, word, text=''):
        return subprocess.run([ENF, word, self.signature, self.policy], input=text, capture_output=True, text=True,
                              check=False)

    def checked(self):
        """What `check` says but for the rules, in one line, or the refusal without its first word."""
        ended = self.run('check')
        if ended.returncode:
            return ended.stderr.strip().split(': ', 1)[1]
        return ', '.join(line for line in ended.stdout.splitlines() if not line.startswith('rule '))

    def rules(self):
        """The rules as `check` says them."""
        return [line for line in self.run('check').stdout.splitlines() if line.startswith('rule ')]

    def enforced(self, log):
        """What is emitted for a log, in one line; it holds by an audit."""
        ended = self.run('enforce', log)
        text = ' '.join(ended.stdout.splitlines())
        if ended.returncode:
            return f'{text} refused, {ended.stderr.splitlines()[-1]}'
        if self.run('audit', ended.stdout).stdout != 'holds\n':
            return f'{text} which does not hold'
        return text


def answers(trial, told):
    """What comes of each line that says what comes: the line, what is wanted, and what comes."""
    rules = iter(trial.rules())
    for line, after in zip(told, told[1:] + ['']):
        if line[0] == ':':
            yield line, line[2:], trial.checked()
        elif line[0] == '>':
            yield line, line[2:], next(rules, 'no rule')
        elif line[0] in '=-':
            yield line, (line if line[0] == '=' else after)[2:], trial.enforced(line[2:])


def cases():
    """The policies and logs as cases of enf_cases, with their answers; those of steps have no actions."""
    for signature, policy, told in (part for page in PAGES for part in parts(page)):
        if not policy:
            continue
        start = f'{" ".join(signature)}{SEPARATOR}{LINE_FEED.join(policy)}'
        for line, after in zip(told, told[1:] + ['']):
            if line[0] == ':':
                yield f'check {start}', line[2:]
            elif line[0] in '=-':
                yield f'steps {start}{SEPARATOR}{line[2:]}', (line if line[0] == '=' else after)[2:]


def differing_cases():
    """How many of the cases stand in enf_cases, and those that have another answer there."""
    known = dict(line.split(WANTED, 1) for line in read('crates/enf_cases/stdin').split('\n') if WANTED in line)
    shared = [(case, answer, ACTION.sub('', known[case]).strip()) for case, answer in cases() if case in known]
    return len(shared), [found for found in shared if found[1] != found[2]]


def show(signature, policy, told):
    with tempfile.TemporaryDirectory() as folder:
        trial = Trial(folder, signature, policy)
        print('\n'.join(policy or signature))
        for line, _, comes in answers(trial, told):
            if line[0] in ':>':
                print(f'{line[0]} {comes}')
            else:
                print(f'= {comes}' if comes == line[2:] else f'- {line[2:]}\n+ {comes}')
        print()


def policies(words):
    if words == ['--print']:
        print('\n'.join(case for case, _ in cases()))
        return 0
    if words == ['--show']:
        for page in PAGES:
            for part in parts(page):
                show(*part)
        return 0
    wrong = sum(hold(page) for page in PAGES)
    shared, differing = differing_cases()
    for case, answer, known in differing:
        print(f'a page says of\n  {case}\n  {answer}\nand the cases\n  {known}', file=sys.stderr)
    print(f'{shared} of them are cases too.')
    return 1 if wrong or differing else 0


def hold(page):
    """How many policies and logs of a page come out other than it says."""
    done, wrong = 0, 0
    for signature, policy, told in parts(page):
        with tempfile.TemporaryDirectory() as folder:
            for line, wanted, comes in answers(Trial(folder, signature, policy), told):
                done += 1
                if comes != wanted:
                    wrong += 1
                    text = '\n'.join(policy or signature)
                    print(f'{page} says of\n{text}\n{line}\n  {wanted}\nand what comes is\n  {comes}', file=sys.stderr)
    print(f'{done - wrong} of {done} policies and logs of {page} come out as it says.')
    return wrong


def run(recipe, wanted, folder):
    """Whether a recipe ends well, with what is wanted on its output."""
    paths = {'PATH': f'{folder}/bin:{os.environ["PATH"]}', 'LC_ALL': 'C.UTF-8', 'ENF': ENF}
    ended = subprocess.run(['bash', '-euo', 'pipefail', '-c', recipe], cwd=folder, env={**os.environ, **paths},
                           stdin=subprocess.DEVNULL, capture_output=True, text=True, check=False)
    if ended.returncode == 0 and (wanted is None or ended.stdout == wanted):
        return True
    print(f'This recipe ended with {ended.returncode} and wrote\n{ended.stdout}{ended.stderr}\n{recipe}', file=sys.stderr)
    return False


def lay_out(folder):
    """What a recipe finds: the files of examples/, what `make` calls, and the program."""
    for name in os.listdir('examples'):
        if os.path.isdir(f'examples/{name}'):
            shutil.copytree(f'examples/{name}', folder, dirs_exist_ok=True)
    for name in ('examples', 'scripts', 'Makefile'):
        os.symlink(os.path.abspath(name), f'{folder}/{name}')
    os.mkdir(f'{folder}/bin')
    os.symlink(ENF, f'{folder}/bin/enf')


def recipes():
    """A recipe is a block of `sh`, with the tools that it needs after that word; what it writes is a `text` after it."""
    done, wrong, left = 0, 0, 0
    for document in ('README.md', 'docs/USING.md'):
        with tempfile.TemporaryDirectory() as folder:
            lay_out(folder)
            found = blocks(read(document))
            for (words, recipe), (next_words, wanted) in zip(found, found[1:] + [([], '')]):
                if words[:1] != ['sh']:
                    continue
                missing = [tool for tool in words[1:] if shutil.which(tool) is None]
                if missing:
                    left += 1
                    print(f'A recipe of {document} needs {" and ".join(missing)}, of the Debian package of that name.')
                    continue
                done += 1
                wrong += not run(recipe, wanted if next_words == ['text'] else None, folder)
    print(f'{done - wrong} of {done} recipes write what the documents say; {left} were left out.')
    return 1 if wrong else 0


def main(words):
    if words[:1] == ['policies']:
        return policies(words[1:])
    if words == ['recipes']:
        return recipes()
    print(__doc__, file=sys.stderr)
    return 1


sys.exit(main(sys.argv[1:]))
