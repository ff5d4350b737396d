#!/usr/bin/env bash
# Stops the enforcement of each log of examples/, of tests/generated, which has to be what `enf gen` gives, and of one under
# twelve rules, after each of its records with the state saved, goes on from there, and compares all that is emitted and the
# report with those of the run that was not stopped. Then it stops after every record of the log, one after the other. The
# program is the proved one, or the one that ENF names.
set -u
cd "$(dirname "$0")/.." || exit 1
. scripts/enf.sh
. scripts/twelve.sh
want_program
work=$(mktemp -d) || exit 1
trap 'rm -rf "$work"' EXIT

# run NAME INPUT WORD..: enforces a log, and leaves its output, report and status in $work/NAME.*.
run() {
    "$program" enforce "${@:3}" < "$2" > "$work/$1.output" 2> "$work/$1.report"
    echo $? > "$work/$1.status"
}

# fail WORD..: says what is not as it was to be.
fail() {
    echo "$*" >&2
    exit 1
}

# is_whole COUNT: whether the first and the second run together are the whole one. A refused record is counted by each run
# from its own first one.
is_whole() {
    cat "$work/first.output" "$work/second.output" | cmp -s - "$work/whole.output" || return 1
    awk -v behind="$1" '$1 == "record" { $2 = $2 + behind ":" } { print }' "$work/second.report" |
        cat "$work/first.report" - | cmp -s - "$work/whole.report" || return 1
    cmp -s "$work/second.status" "$work/whole.status"
}

# hold SIG POLICY LOG: a log with a record on each line.
hold() {
    local count records
    run whole "$3" "$1" "$2"
    records=$(wc -l < "$3")
    for count in $(seq 0 "$records"); do
        head -n "$count" "$3" > "$work/first.log"
        tail -n +$((count + 1)) "$3" > "$work/second.log"
        rm -f "$work/state"
        run first "$work/first.log" "$1" "$2" --save "$work/state"
        if [ "$(cat "$work/first.status")" != 0 ]; then
            [ ! -e "$work/state" ] && cmp -s "$work/first.output" "$work/whole.output" || fail "$3 refused after record $count"
            continue
        fi
        run second "$work/second.log" "$1" "$2" --resume "$work/state"
        is_whole "$count" || fail "$3 stopped after record $count is not as it goes on"
    done
    [ "$(cat "$work/whole.status")" != 0 ] || hold_each "$@"
    echo "$3: as it goes on, stopped after each of its $records records"
}

# hold_each SIG POLICY LOG: each record in a run of its own.
hold_each() {
    local record
    run each /dev/null "$1" "$2" --save "$work/state"
    cp "$work/each.output" "$work/all"
    while IFS= read -r record; do
        echo "$record" > "$work/record"
        run each "$work/record" "$1" "$2" --resume "$work/state" --save "$work/state"
        cat "$work/each.output" >> "$work/all"
    done < "$3"
    run each /dev/null "$1" "$2" --resume "$work/state"
    cat "$work/all" "$work/each.output" | cmp -s - "$work/whole.output" || fail "$3 stopped after every record is not as it goes on"
}

for folder in examples/*/ tests/generated/; do
    example=$(basename "$folder")
    hold "$folder$example.sig" "$folder$example.policy" "$folder$example.log"
    cat "$folder$example.enforced" "$folder$example.report" |
        cmp -s - <(cat "$work/whole.output" "$work/whole.report") || fail "$folder has other files than what comes"
done
"$program" gen 1 8 | cmp -s - tests/generated/generated.log || fail "tests/generated has not what enf gen 1 8 gives"
hold examples/access/access.sig examples/access/access.policy examples/access/falling.log
write_twelve "$work" 200
hold "$work/personal" "$work/twelve" "$work/twelve.log"
