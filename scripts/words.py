#!/usr/bin/env python3
"""words.py ROOT: holds that each public word of specs/ is defined once in the repository: each item of a file of
crates/*/specs/*/, in a block of module or mutual too, and each constructor of data. Prints the words that are defined in
more than one file, with their places, and fails where there are some."""
import glob
import os
import re
import sys

ITEM = re.compile(r'((?:(?:abbrev|unfoldable|pub|record|data) )+)(\S+)')
BLOCK = re.compile(r'(?:(?:abbrev|pub) )*(?:module|mutual)\b')
NO_ITEMS = ('use', 'mod', 'module', 'mutual')


def words_of(path):
    """Each public word that a file defines, with its line."""
    blocks = 0
    data = None
    with open(path, encoding='utf-8') as file:
        lines = file.read().split('\n')
    for number, line in enumerate(lines, 1):
        text = line.strip()
        if not text or text.startswith('--'):
            continue
        indent = len(line) - len(line.lstrip(' '))
        blocks = min(blocks, indent // 2)
        if data is not None and indent <= data:
            data = None
        if indent == 2 * blocks:
            item = ITEM.match(text)
            if BLOCK.match(text):
                blocks += 1
            elif item and 'pub ' in item.group(1) and item.group(2) not in NO_ITEMS:
                yield item.group(2), number
                if 'data ' in item.group(1):
                    data = indent
        elif data is not None and indent == data + 2:
            constructor = re.match(r'(\S+) :', text)
            if constructor:
                yield constructor.group(1), number


def main():
    root = sys.argv[1] if len(sys.argv) > 1 else os.path.join(os.path.dirname(os.path.abspath(__file__)), '..')
    places = {}
    for path in sorted(glob.glob(os.path.join(root, 'crates/*/specs/*/*.antt'))):
        for word, number in words_of(path):
            places.setdefault(word, []).append('%s:%d' % (os.path.relpath(path, os.path.join(root, 'crates')), number))
    # Constructors of two data of one file may share a name: their types tell them apart.
    repeated = {word: found for word, found in places.items() if len({place.split(':')[0] for place in found}) > 1}
    for word in sorted(repeated):
        print('words: %s is defined at %s' % (word, ', '.join(repeated[word])))
    print('%d public words of specs/, of which %d are defined more than once' % (len(places), len(repeated)))
    sys.exit(1 if repeated or not places else 0)


main()
