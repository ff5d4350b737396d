#!/usr/bin/env python3
"""trusted.py ROOT: prints the shelf, which is the file that holds the words of the clause `headline` of `run` and all files
that it imports, in reading order; then what `outcome`, `due` and `handed_on` take beside; the totals; and the names of what
is no file: modules that the kit makes of Rust types, and those of its std. Fails where a file is not of specs/meaning, or
where there is more than may be."""
import heapq
import os
import re
import sys

RUN = 'crates/enf_run/src/run.rt'
# What the shelf may have; for all four clauses the aim is 7,000 lines.
MOST_FILES = 75
MOST_LINES = 4000
MOST_LINES_OF_ALL = 7000
GENERATED = 'declared'


def read(root, path):
    with open(os.path.join(root, path), encoding='utf-8') as file:
        return file.read()


def without_comments(text):
    return re.sub(r'(?m)^\s*--.*$', '', text)


def words_of(run, clause):
    """The words of a clause of `run`, each with the module from which it is imported."""
    text = re.search(r'ensures\s+' + clause + r'\s*\{([^{}]*)\}', run)
    if not text:
        sys.exit('%s: no clause %s' % (RUN, clause))
    origin = {}
    for module, names in re.findall(r'ghost use\s+([^\s{};]+)\.\{([^}]*)\}', run):
        for name in names.split(','):
            if name.strip():
                origin[name.split()[-1]] = module
    words = [(word, origin[word]) for word in re.findall(r'[^\s(){}]+', text.group(1)) if word in origin]
    if not words:
        sys.exit('%s: nothing of clause %s is imported' % (RUN, clause))
    return words


class Shelf:
    def __init__(self, root):
        self.root = root
        names = [line.split(':')[0].strip() for line in read(root, 'crates.txt').split('\n') if ':' in line]
        self.order = {name: number for number, name in enumerate(names)}
        self.imports = {}
        self.others = {}

    def file_of(self, module):
        """The file of a module, or of the one that it is a part of; none where it is no file."""
        parts = module.split('.')
        if parts[0] != 'Rattle' or len(parts) < 4 or parts[1] not in self.order or parts[3] == GENERATED:
            return None
        for end in range(len(parts), 3, -1):
            path = 'crates/%s.antt' % '/'.join(parts[1:end])
            if os.path.isfile(os.path.join(self.root, path)):
                return path
        sys.exit('%s is neither a file nor made of a Rust type' % module)

    def add(self, path):
        """Takes in a file with all that it imports."""
        waiting = [path]
        while waiting:
            path = waiting.pop()
            if path in self.imports:
                continue
            files, others = set(), set()
            for module in re.findall(r'(?m)^\s*(?:pub )?use\s+([^\s{]+)', without_comments(read(self.root, path))):
                module = module.rstrip('.')
                file = self.file_of(module)
                if file is None:
                    others.add(module)
                elif file != path:
                    files.add(file)
            self.imports[path] = files
            self.others[path] = others
            waiting.extend(files)

    def above(self, starts):
        """The files from which these are made, themselves among them."""
        found, waiting = set(), list(starts)
        while waiting:
            path = waiting.pop()
            if path not in found:
                found.add(path)
                waiting.extend(self.imports[path])
        return found

    def in_order(self, paths):
        """Lowest first: a file after all that it imports, and else by the order of the crates."""
        left = {path: self.imports[path] & paths for path in paths}
        ready = [self.rank(path) for path in paths if not left[path]]
        heapq.heapify(ready)
        done = []
        while ready:
            path = heapq.heappop(ready)[-1]
            done.append(path)
            for other in paths:
                if path in left[other]:
                    left[other] = left[other] - {path}
                    if not left[other]:
                        heapq.heappush(ready, self.rank(other))
        if len(done) < len(paths):
            sys.exit('these import one another: %s' % ', '.join(sorted(paths - set(done))))
        return done

    def rank(self, path):
        return self.order[path.split('/')[1]], path

    def lines(self, paths):
        return sum(read(self.root, path).count('\n') for path in paths)

    def show(self, paths):
        for path in paths:
            _, crate, file = path.split('/', 2)
            print('%-18s %-40s %5d' % (crate, file, self.lines([path])))


def main():
    root = sys.argv[1] if len(sys.argv) > 1 else os.path.join(os.path.dirname(os.path.abspath(__file__)), '..')
    shelf = Shelf(root)
    run = read(root, RUN)
    clauses = [words_of(run, clause) for clause in ('headline', 'outcome', 'due', 'handed_on')]
    starts = [shelf.file_of(words[0][1]) for words in clauses]
    for start in starts:
        shelf.add(start)
    headline = shelf.above(starts[:1])
    every = shelf.above(starts)
    print('What must be believed of the clause headline, lowest first:')
    shelf.show(shelf.in_order(headline))
    print('\nWhat the clauses outcome, due and handed_on take beside:')
    shelf.show([path for path in shelf.in_order(every) if path not in headline])
    print('\nheadline: %d files of %d, %d lines of %d' % (len(headline), MOST_FILES, shelf.lines(headline), MOST_LINES))
    print('all four: %d files, %d lines of %d' % (len(every), shelf.lines(every), MOST_LINES_OF_ALL))
    others = {}
    for path in every:
        for module in shelf.others[path]:
            others.setdefault(module.split('.')[1] in shelf.order, set()).add(module)
    for made, what in ((True, 'made of Rust types'), (False, 'of the kit')):
        print('\nNo files, %s:' % what)
        for module in sorted(others.get(made, ())):
            print('  ' + module)
    more = {(module, word) for words in clauses for word, module in words
            if shelf.file_of(module) and shelf.file_of(module) not in every}
    if more:
        print('\nWords of the four clauses that stand in none of these files:')
        for module, word in sorted(more):
            print('  %s of %s' % (word, module))
    faults = ['%s is not of specs/meaning' % path for path in shelf.in_order(every)
              if not path.split('/', 2)[2].startswith('specs/meaning/')]
    if len(headline) > MOST_FILES or shelf.lines(headline) > MOST_LINES:
        faults.append('the shelf of headline has more than %d files or %d lines' % (MOST_FILES, MOST_LINES))
    if shelf.lines(every) > MOST_LINES_OF_ALL:
        faults.append('the shelf of all four clauses has more than %d lines' % MOST_LINES_OF_ALL)
    print('')
    for fault in faults:
        print('trusted: ' + fault)
    sys.exit(1 if faults else 0)


main()
