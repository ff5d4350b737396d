#!/usr/bin/env bash
# try.sh SIGNATURE POLICY [LOG]: enforces a log of one's own, or checks the policy where there is none, by the proved program
# where there is one, else before any proof. Of a refusal it shows the line with a mark under the place. It ends with the
# program's status.
set -u
if [ -z "${1:-}" ] || [ -z "${2:-}" ]; then
    echo "usage: make try SIG=FILE POLICY=FILE [LOG=FILE]" >&2
    exit 1
fi
for file in "$1" "$2" "${3:-/dev/null}"; do
    if [ ! -r "$file" ]; then
        echo "$file cannot be read" >&2
        exit 1
    fi
done
work=$(mktemp -d) || exit 1
trap 'rm -rf "$work"' EXIT
mkdir "$work/files"
cp "$1" "$work/files/signature"
cp "$2" "$work/files/policy"
cp "${3:-/dev/null}" "$work/log"
cd "$(dirname "$0")/.." || exit 1
. scripts/enf.sh

# show_place FILE PLACE NAME: the line of a file with a mark under the byte at the place.
show_place() {
    local line
    line=$(($(head -c "$2" "$1" | tr -cd '\n' | wc -c) + 1))
    echo "-- $3, line $line"
    sed -n "${line}p" "$1" | sed '$a\'
    (head -c "$2" "$1" && echo x) | tail -n 1 | sed 's/[^\t]/ /g; s/ $/^/'
}

# record_place NUMBER: where a record of the log begins. It ends at the first `;` outside a text.
record_place() {
    LC_ALL=C awk -v wanted="$1" '{
        line = $0 "\n"
        for (i = 1; i <= length(line); i++) {
            byte = substr(line, i, 1)
            if (!within && byte !~ /[ \t\r\n]/) {
                within = 1
                if (++count == wanted) { print place + i - 1; exit }
            }
            if (!within) continue
            if (escaped) escaped = 0
            else if (quoted) { escaped = byte == "\\"; quoted = byte != "\"" }
            else if (byte == "\"") quoted = 1
            else if (byte == ";") within = 0
        }
        place += length(line)
    }' "$work/log"
}

# show_refusal LINE SIGNATURE POLICY LOG: where the refusal of this line stands, if it has a place.
show_refusal() {
    local place=0 begins
    if [[ $1 =~ \ at\ ([0-9]+)$ ]]; then
        place=${BASH_REMATCH[1]}
    fi
    case $1 in
    'signature: '*' at '*) show_place "$work/files/signature" "$place" "$2" ;;
    'policy: '*' at '*) show_place "$work/files/policy" "$place" "$3" ;;
    'record '[0-9]*)
        begins=${1#record }
        begins=$(record_place "${begins%%:*}")
        if [ -n "$begins" ]; then
            show_place "$work/log" $((begins + place)) "$4"
        fi
        ;;
    esac
}

find_program
if [ -n "${3:-}" ]; then
    add_run own "$work/log" enforce signature policy
    make_runs "$work/files"
    echo "== $3: '-' came in, '+' is emitted in its place (a tick never does)"
    show_changes "$work/log" "$work/own.output"
else
    add_run own /dev/null check signature policy
    make_runs "$work/files"
    echo "== what is to be said of $2"
    show_lines "$work/own.output"
fi
show_end own
show_refusal "$(tail -n 1 "$work/own.report")" "$1" "$2" "${3:-}"
exit "$(cat "$work/own.status")"
