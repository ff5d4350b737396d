#!/usr/bin/env bash
# trusted.sh [ROOT]: prints what must be believed of the theorem on `run`, in reading order, and fails where a file of it is no
# file of specs/meaning, where there is too much of it, or where a public word of specs/ is defined twice. ROOT is the
# repository, else the folder above this one.
root=${1:-${ROOT:-$(dirname "$0")/..}}
status=0
/usr/bin/env python3 "$(dirname "$0")/trusted.py" "$root" || status=1
/usr/bin/env python3 "$(dirname "$0")/words.py" "$root" || status=1
exit "$status"
