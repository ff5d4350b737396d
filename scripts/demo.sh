#!/usr/bin/env bash
# Enforces the logs of examples/, and shows for each what was changed, the report and the status, and what an audit says
# of what is emitted and of the log as it came. It checks two policies, of which one is refused.
set -u
cd "$(dirname "$0")/.." || exit 1
work=$(mktemp -d) || exit 1
trap 'rm -rf "$work"' EXIT
. scripts/enf.sh

# want NAME STATUS FILE..: fails where the run's status is another, or its output and report are not what the files have.
want() {
    if [ "$(cat "$work/$1.status")" -ne "$2" ] || ! cat "$work/$1.output" "$work/$1.report" | cmp -s - <(cat "${@:3}"); then
        echo "status $2 and what stands in ${*:3} were wanted" >&2
        exit 1
    fi
}

# show_file NAME: a file of examples/.
show_file() {
    echo
    echo "== examples/$1"
    show_lines "examples/$1"
}

# show_enforced NAME FILE: what was changed in a log of examples/.
show_enforced() {
    echo
    echo "== enf enforce, on examples/$2: '-' came in, '+' is emitted in its place (a tick never does)"
    show_changes "examples/$2" "$work/$1.output"
    show_end "$1"
}

# show_checked NAME: what is said of a policy.
show_checked() {
    echo "-- enf check"
    show_lines "$work/$1.output"
    show_end "$1"
}

# show_audited NAME: what is emitted satisfies the policy, and the log as it came does not.
show_audited() {
    echo
    echo "== enf audit, on examples/$1/$1.enforced and on examples/$1/$1.log"
    show_lines "$work/$1-enforced.output"
    show_lines "$work/$1-log.output"
    want "$1-enforced" 0 <(echo holds)
    want "$1-log" 7 "$work/$1-log.output"
}

# enforce_folder NAME: the policy of a folder on its log.
enforce_folder() {
    show_file "$1/$1.sig"
    show_file "$1/$1.policy"
    show_enforced "$1" "$1/$1.log"
    want "$1" 0 "examples/$1/$1.enforced" "examples/$1/$1.report"
    show_audited "$1"
}

find_program
mkdir "$work/files"
cp examples/*/* "$work/files"
for name in purposes data access safety; do
    add_run "$name" "examples/$name/$name.log" enforce "$name.sig" "$name.policy"
    add_run "$name-enforced" "examples/$name/$name.enforced" audit "$name.sig" "$name.policy"
    add_run "$name-log" "examples/$name/$name.log" audit "$name.sig" "$name.policy"
done
add_run falling examples/access/falling.log enforce access.sig access.policy
add_run checked /dev/null check data.sig data.policy
add_run reminder /dev/null check data.sig reminder.policy
make_runs "$work/files"

enforce_folder purposes
enforce_folder data
show_checked checked
want checked 0 examples/data/data.checked
show_file data/reminder.policy
show_checked reminder
want reminder 2 examples/data/reminder.checked
enforce_folder access
show_enforced falling access/falling.log
want falling 3 examples/access/falling.enforced examples/access/falling.report
enforce_folder safety
