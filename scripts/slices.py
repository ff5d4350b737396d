#!/usr/bin/env python3
"""slices.py [COUNT [SEED]]: random policies and logs, so many of them (10,000), against what docs/SCALING.md says of slices.

For each, `enf-slice check` is to say what a reckoning from the definition says, with its place. Where the policy is sliced,
the log is split, into the lines that a reckoning gives: where `enf audit` holds of every slice it is to hold of the whole
log; and where the policy can be enforced too, each slice is enforced alone, and `enf audit` is to hold of all that comes
out, put together.

The programs are bin/enf and bin/enf-slice, or those that the variables ENF and ENF_SLICE name."""
import os
import random
import subprocess
import sys
import tempfile

HERE = os.path.dirname(os.path.abspath(__file__))
ENF = os.path.abspath(os.environ.get('ENF', os.path.join(HERE, '..', 'bin', 'enf')))
SLICE = os.path.abspath(os.environ.get('ENF_SLICE', os.path.join(HERE, '..', 'bin', 'enf-slice')))

# Names with their columns, marks and key positions. A name without a key is shared, and has no mark.
NAMES = {
    'use': (2, '-', 0), 'ask': (1, '', 0), 'give': (2, '', 1), 'end': (2, '+', 0), 'lock': (1, '', 0),
    'alarm': (0, '', None), 'mode': (1, '', None),
}
SIGNATURE = ''.join(f"{name}({','.join(['int'] * arity)}) {mark};\n" for name, (arity, mark, _) in NAMES.items())
KEYS = ''.join(f'{name}({key});\n' for name, (_, _, key) in NAMES.items() if key is not None)


class Node:
    """A formula: its kind, its parts, and the place of its principal token, which `text` finds."""

    def __init__(self, kind, *parts):
        self.kind, self.parts, self.place = kind, parts, None


def atom(name, *terms):
    return Node('atom', name, terms)


def text(node, out):
    """Appends the text of a formula to the pieces and notes where principal tokens stand."""
    def here():
        return sum(map(len, out))

    def operand(part):
        out.append('(')
        text(part, out)
        out.append(')')

    kind, parts = node.kind, node.parts
    if kind in ('true', 'false'):
        node.place = here()
        out.append(kind)
    elif kind == 'atom':
        node.place = here()
        out.append(f"{parts[0]}({','.join(map(str, parts[1]))})")
    elif kind in ('=', '<', '<='):
        out.append(f'{parts[0]} ')
        node.place = here()
        out.append(f'{kind} {parts[1]}')
    elif kind in ('not', 'prev', 'next', 'once', 'historically', 'eventually', 'always'):
        node.place = here()
        out.append(kind if kind == 'not' else f'{kind}{interval(parts[1])}')
        out.append(' ')
        operand(parts[0])
    elif kind in ('forall', 'exists'):
        node.place = here()
        out.append(f"{kind} {', '.join(parts[0])}. ")
        operand(parts[1])
    else:
        operand(parts[0])
        out.append(' ')
        node.place = here()
        out.append(kind if kind in ('and', 'or', '->') else f'{kind}{interval(parts[2])}')
        out.append(' ')
        operand(parts[1])


def interval(ends):
    return f"[{ends[0]},{'*' if ends[1] is None else ends[1]}]"


# ---- The definition: what is known of a formula where nothing of the key happens, and the rules of one key.

NOT = {'holds': 'fails', 'fails': 'holds', 'open': 'open'}


def both(one, other):
    if 'fails' in (one, other):
        return 'fails'
    return 'open' if 'open' in (one, other) else 'holds'


def either(one, other):
    return NOT[both(NOT[one], NOT[other])]


def known(node, in_trace):
    """At a step with no event of the key and none that is shared; or at each step of a trace with no event of the key."""
    kind, parts = node.kind, node.parts
    if kind in ('true', 'false'):
        return 'holds' if kind == 'true' else 'fails'
    if kind == 'atom':
        shared = NAMES[parts[0]][2] is None
        return 'open' if shared and in_trace else 'fails'
    if kind == 'not':
        return NOT[known(parts[0], in_trace)]
    if kind in ('and', 'or', '->'):
        left, right = known(parts[0], in_trace), known(parts[1], in_trace)
        return both(left, right) if kind == 'and' else either(left if kind == 'or' else NOT[left], right)
    if kind in ('exists', 'forall'):
        return known(parts[1], in_trace)
    if kind in ('once', 'eventually', 'since', 'until'):
        witness = known(parts[0] if kind in ('once', 'eventually') else parts[1], in_trace)
        return 'fails' if in_trace and witness == 'fails' else 'open'
    if kind in ('historically', 'always'):
        return 'holds' if in_trace and known(parts[0], in_trace) == 'holds' else 'open'
    return 'open'


def subformulas(node):
    return [part for part in node.parts if isinstance(part, Node)]


def key_variable(variables, node):
    if node.kind == 'atom':
        key = NAMES[node.parts[0]][2]
        term = None if key is None else node.parts[1][key]
        return term if term in variables else None
    for part in subformulas(node):
        found = key_variable(variables, part)
        if found is not None:
            return found
    return None


def in_the_way(node, x):
    """All places that are in the way of a cut by the key that the variable has, each with the reason."""
    kind, parts = node.kind, node.parts
    if kind == 'atom':
        key = NAMES[parts[0]][2]
        return [(node.place, 'other key')] if key is not None and parts[1][key] != x else []
    found = []
    if kind in ('exists', 'forall') and x in parts[0]:
        found.append((node.place, 'key bound'))
    if kind in ('prev', 'next'):
        found.append((node.place, 'neighbour'))
    wanted = {'once': ['fails'], 'eventually': ['fails'], 'historically': ['holds'], 'always': ['holds'],
              'since': ['holds', 'fails'], 'until': ['holds', 'fails']}.get(kind, [])
    for part, verdict in zip(subformulas(node), wanted):
        if known(part, False) != verdict:
            found.append((part.place, 'operand'))
    for part in subformulas(node):
        found += in_the_way(part, x)
    return found


def hindrances(rule):
    if rule.kind != 'forall':
        return [(rule.place, 'no key')]
    x = key_variable(rule.parts[0], rule.parts[1])
    if x is None:
        return [(rule.place, 'no key')]
    body = rule.parts[1]
    found = in_the_way(body, x)
    if known(body, False) != 'holds' or known(body, True) != 'holds':
        found.append((body.place, 'rule'))
    return found


# ---- Random policies and logs.

def some_terms(draw, name, x, y):
    """Mostly with the key variable where the key is."""
    arity, _, key = NAMES[name]
    terms = [draw.choice([y, y, x, 1]) for _ in range(arity)]
    if key is not None and draw.random() < 0.93:
        terms[key] = x
    return terms


def some_atom(draw, x, y, names=None):
    name = draw.choice(names or ['use', 'ask', 'give', 'end', 'lock', 'alarm', 'mode'])
    return atom(name, *some_terms(draw, name, x, y))


def some_interval(draw, bounded):
    low = draw.choice([0, 0, 0, 1, 2])
    return (low, None if not bounded and draw.random() < 0.4 else low + draw.randint(1, 6))


def past(draw, depth, x, y):
    """A formula of the past or the present."""
    if depth == 0 or draw.random() < 0.25:
        return some_atom(draw, x, y, ['use', 'ask', 'give', 'lock', 'alarm', 'mode'])
    kind = draw.choice(['and', 'or', 'not', 'once', 'once', 'since', 'historically', 'prev', 'exists', '=', '->'])
    if kind == '=':
        return Node(draw.choice(['=', '<', '<=']), draw.choice([x, y]), draw.choice([x, y, 1]))
    if kind == 'not':
        return Node('not', past(draw, depth - 1, x, y))
    if kind in ('once', 'historically', 'prev'):
        body = past(draw, depth - 1, x, y)
        return Node(kind, Node('not', body) if kind == 'historically' and draw.random() < 0.8 else body, some_interval(draw, False))
    if kind == 'since':
        left = past(draw, 0, x, y)
        left = Node('not', left) if draw.random() < 0.85 else left
        return Node('since', left, past(draw, depth - 1, x, y), some_interval(draw, False))
    if kind == 'exists':
        z = draw.choice(['z', 'z', 'z', x])
        return Node('exists', [z], past(draw, depth - 1, x, z)) if z != x else past(draw, depth - 1, x, y)
    return Node(kind, past(draw, depth - 1, x, y), past(draw, depth - 1, x, y))


def some_rule(draw):
    x, y = 'x', 'y'
    form = draw.randrange(8)
    if form <= 2:
        return Node('forall', [x, y], Node('->', atom('use', x, y), past(draw, draw.randint(1, 3), x, y)))
    if form == 3:
        guard = draw.choice([atom('ask', x), atom('lock', x), Node('and', atom('ask', x), past(draw, 1, x, x))])
        return Node('forall', [x], Node('->', guard, Node('eventually', atom('end', x, x), (0, draw.randint(1, 8)))))
    if form == 4:
        ban = Node('forall', [y], Node('not', atom('use', x, y)))
        return Node('forall', [x], Node('->', atom('ask', x), Node('until', ban, atom('end', x, x), (0, draw.randint(1, 8)))))
    if form == 5:
        ban = Node('forall', [y], Node('not', atom('use', x, y)))
        return Node('forall', [x], Node('->', atom('lock', x), Node('always', ban, (0, draw.randint(1, 5)))))
    if form == 6:
        return Node('forall', [x, y], Node('->', Node('and', atom('use', x, y), past(draw, 2, x, y)), past(draw, 2, x, y)))
    return Node('forall', [draw.choice([x, y])] if draw.random() < 0.1 else [x, y],
                Node('->', past(draw, 1, x, y), past(draw, 2, x, y)))


def some_policy(draw):
    rules = [some_rule(draw) for _ in range(draw.choice([1, 1, 2]))]
    out = []
    for number, rule in enumerate(rules):
        out.append(f'rule r{number}: ')
        text(rule, out)
        out.append(';\n')
    return rules, ''.join(out)


def some_log(draw):
    """Records: a time, and events, each a name and its arguments; or None in their place for a tick."""
    time, records, keys = 0, [], draw.randint(1, 4)
    for _ in range(draw.randint(1, 12)):
        time += draw.choice([0, 1, 1, 2, 5])
        if draw.random() < 0.1:
            records.append((time, None))
            continue
        events = []
        for _ in range(draw.choice([0, 1, 1, 1, 2, 3])):
            name = draw.choice(['use', 'use', 'ask', 'give', 'end', 'lock', 'alarm', 'mode'])
            args = [draw.randint(1, 2) for _ in range(NAMES[name][0])]
            if NAMES[name][2] is not None:
                args[NAMES[name][2]] = draw.randint(1, keys)
            if (name, args) not in events:
                events.append((name, args))
        records.append((time, events))
    return records


def step(time, events):
    return f"@{time}{''.join(f' {event}' for event in events)};\n"


def spelled(events):
    return [f"{name}({','.join(map(str, args))})" for name, args in events]


def log_text(records):
    return ''.join(f'>{time};\n' if events is None else step(time, spelled(events)) for time, events in records)


# ---- The definition of the streams: FNV-1a with 64 bits of the key's bytes.

def stream_of(event, streams):
    """The stream of an event; none where its name is shared."""
    key = NAMES[event[0]][2]
    if key is None:
        return None
    value = 14695981039346656037
    for byte in str(event[1][key]).encode():
        value = (value ^ byte) * 1099511628211 % 2**64
    return value % streams


def shares(record, streams):
    """For each stream the events that it has of a record: none in a tick, and nothing of what goes elsewhere."""
    time, events = record
    if not events:
        return {stream: None for stream in range(streams)}
    parts = {stream: [event for event in events if stream_of(event, streams) in (None, stream)] for stream in range(streams)}
    return {stream: part for stream, part in parts.items() if part}


def split_text(records, streams):
    lines = []
    for record in records:
        for stream, part in shares(record, streams).items():
            lines.append(f'{stream}:>{record[0]};\n' if part is None else f'{stream}:' + step(record[0], spelled(part)))
    return ''.join(lines)


# ---- The programs.

def run(program, words, given=''):
    done = subprocess.run([program, *words], input=given.encode(), capture_output=True, timeout=120)
    return done.returncode, done.stdout.decode(), done.stderr.decode()


def merged(records, outputs):
    """All that came out as one log: what the slices made of a record is one step again, and each inserted step stands
    behind the steps up to its time."""
    lines = [iter([line for line in output.splitlines() if line[0] == '@']) for output in outputs]
    steps = []
    for record in records:
        if record[1]:
            events = []
            for stream in shares(record, len(outputs)):
                for event in next(lines[stream]).rstrip(';').split(' ')[1:]:
                    if event not in events:
                        events.append(event)
            steps.append((record[0], 0, step(record[0], events)))
    for output in outputs:
        steps += [(int(line[1:].split(' ')[0].rstrip(';')), 1, line + '\n') for line in output.splitlines() if line[0] == '+']
    return ''.join(line for _, _, line in sorted(steps, key=lambda step: step[:2]))


class Wrong(Exception):
    pass


def try_one(draw, folder, counts):
    rules, policy = some_policy(draw)
    records = some_log(draw)
    log = log_text(records)
    with open(f'{folder}/policy', 'w') as file:
        file.write(policy)
    files = [f'{folder}/signature', f'{folder}/policy']
    status, said, refused = run(SLICE, ['check', *files, f'{folder}/keys'])
    if status == 2:
        counts['unread'] += 1
        return
    found = sorted(place for rule in rules for place in hindrances(rule))
    if not found:
        wanted = {'sliced\n'}
    else:
        wanted = {f'not sliced: {why} at {place}\n' for place, why in found if place == found[0][0]}
    if said not in wanted or status != (7 if found else 0):
        raise Wrong(f'check says {said!r} ({status}), the definition {wanted!r}\n{policy}')
    if found:
        counts['not sliced'] += 1
        return
    counts['sliced'] += 1
    streams = draw.randint(1, 4)
    status, split, refused = run(SLICE, ['split', files[0], f'{folder}/keys', str(streams)], log)
    if status != 0:
        raise Wrong(f'split ends with {status}: {refused}\n{log}')
    if split != split_text(records, streams):
        raise Wrong(f'split gives\n{split}in place of\n{split_text(records, streams)}of\n{log}')
    slices = [''.join(line.split(':', 1)[1] + '\n' for line in split.splitlines() if line.startswith(f'{k}:'))
              for k in range(streams)]
    status, _, refused = run(ENF, ['audit', *files], log)
    if status == 2:
        counts['not enforceable'] += 1
        return
    whole = status
    each = [run(ENF, ['audit', *files], one)[0] for one in slices]
    if any(one not in (0, 7) for one in [whole, *each]):
        raise Wrong(f'audits end with {whole}, {each}\n{policy}{log}')
    counts['slices satisfy' if set(each) == {0} else 'slices do not'] += 1
    if set(each) == {0} and whole == 7:
        raise Wrong(f'each slice satisfies, and the whole does not\n{policy}{log}{split}')
    counts['the whole does not'] += whole == 7
    enforced = [run(ENF, ['enforce', *files], one) for one in slices]
    if any(status != 0 for status, _, _ in enforced):
        raise Wrong(f'enforce ends with {[status for status, _, _ in enforced]}\n{policy}{split}')
    together = merged(records, [output for _, output, _ in enforced])
    if run(ENF, ['audit', *files], together)[0] != 0:
        raise Wrong(f'what each slice gives satisfies alone, and not together\n{policy}{split}{together}')
    counts['enforced'] += 1


def main():
    count = int(sys.argv[1]) if len(sys.argv) > 1 else 10000
    seed = int(sys.argv[2]) if len(sys.argv) > 2 else 1
    counts = dict.fromkeys(['unread', 'not sliced', 'sliced', 'not enforceable', 'slices satisfy', 'slices do not',
                            'the whole does not', 'enforced'], 0)
    with tempfile.TemporaryDirectory() as folder:
        for name, content in (('signature', SIGNATURE), ('keys', KEYS)):
            with open(f'{folder}/{name}', 'w') as file:
                file.write(content)
        for number in range(count):
            try:
                try_one(random.Random(f'{seed} {number}'), folder, counts)
            except Wrong as wrong:
                print(f'case {number} of seed {seed}: {wrong}')
                return 1
    print(f'{count} policies and logs: ' + ', '.join(f'{what} {many}' for what, many in counts.items()))
    return 0


if __name__ == '__main__':
    sys.exit(main())
