#!/usr/bin/env python3
"""drilled.py START N prints the line that `enf drill START N` has to give. It knows the three rules of the sample policy
by their meaning alone, and enforces them on the log that generated.py prints; the counts that tests want come from it."""
import re
import subprocess
import sys
from pathlib import Path

COUNTS = dict.fromkeys(['steps', 'inserted', 'caused', 'suppressed'], 0)
CONSENTED = set()  # whose use is allowed from then on
PENDING = []       # what is owed: the event, its user, and the last time for it


def change(events, event, name):
    COUNTS[name] += 1
    events.append(event) if name == 'caused' else events.remove(event)


def decide(time, events, inserted):
    """A step at a time is emitted with these events, changed as the rules want."""
    COUNTS['inserted' if inserted else 'steps'] += 1
    for owed, user, end in PENDING:
        if inserted and end == time and (owed, user) not in events:
            change(events, (owed, user), 'caused')
    users = {name: {user for other, user in events if other == name} for name in ('request', 'consent', 'use', 'lock')}
    CONSENTED.update(users['consent'])
    locked = users['lock'] | {user for owed, user, end in PENDING if owed == 'unlock'}
    for user in users['use']:
        if user not in CONSENTED or user in locked:
            change(events, ('use', user), 'suppressed')
    PENDING[:] = [one for one in PENDING if one[:2] not in events]
    PENDING.extend(('delete', user, time + 30) for user in users['request'] if ('delete', user) not in events)
    PENDING.extend(('unlock', user, time + 10) for user in users['lock'])


def serve(until):
    """A step is inserted at each time at which something is due before the given time."""
    while PENDING and min(end for _, _, end in PENDING) < until:
        decide(min(end for _, _, end in PENDING), [], True)


log = subprocess.run([sys.executable, Path(__file__).with_name('generated.py'), *sys.argv[1:]],
                     check=True, capture_output=True, text=True).stdout
for line in log.splitlines():
    now = int(line[1:line.index(';')].split(' ')[0])
    serve(now)
    decide(now, re.findall(r'(\w+)\("(\w+)"\)', line), False)
kept, pending = len(CONSENTED), len(PENDING)
serve(float('inf'))
print(' '.join(f'{name} {count}' for name, count in COUNTS.items()), 'kept', kept, 'pending', pending)
