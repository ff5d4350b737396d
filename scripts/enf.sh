#!/usr/bin/env bash
# Sourced by the other scripts, which are at the top and have a folder $work: runs of enf, by the proved program where it
# was built from these sources. Runs are gathered by add_run and made by make_runs, so that a program that is not there is
# compiled once for all of them.

# What is compiled before any proof, and kept for the next run.
unproved=bin/enf-NOT-PROVED

# Whether a program was made from the sources as they are, and is still what was made: FILE.sources begins with the
# checksums of both.
is_made() {
    [ -x "$1" ] && [ -f "$1.sources" ] &&
        [ "$(head -n 2 "$1.sources")" = "$(scripts/sources.sh && sha256sum < "$1" | cut -d ' ' -f 1)" ]
}

is_proved() {
    is_made bin/enf
}

# Ends where there is neither the proved program nor one that ENF names, and leaves in $program which one runs.
want_program() {
    if [ -n "${ENF:-}" ]; then
        program=$(realpath "$ENF") || exit 1
    elif is_proved; then
        program=$PWD/bin/enf
    else
        echo "bin/enf is not there, or was built from other sources, or is not what was built; 'make build' makes it" >&2
        exit 1
    fi
}

# Says which program runs, on standard error, and leaves it in $program, which is empty where one is compiled first.
find_program() {
    program=''
    if [ -n "${ENF:-}" ]; then
        program=$(realpath "$ENF") || exit 1
        echo "This is $ENF, which ENF names."
    elif is_proved; then
        program=$PWD/bin/enf
        echo "This is the proved program, bin/enf."
    elif is_made "$unproved"; then
        program=$PWD/$unproved
        echo "This run is NOT PROVED: it is by $unproved, which an earlier one compiled from these sources."
        echo "'make build' proves the program."
    elif ! command -v rt > /dev/null; then
        echo "The Rattle kit (the command rt) is wanted, and is not here."
        exit 1
    else
        [ ! -x bin/enf ] || echo "bin/enf was built from other sources, or is not what was built, so it is not taken."
        echo "This run is NOT PROVED: 'rt try' compiles the program and runs it. 'make build' proves it."
        echo "It compiles for a minute or two; please wait. The next run takes what it compiled."
    fi >&2
}

# add_run NAME INPUT WORD..: a run of the program with these words on this input.
add_run() {
    mkdir -p "$work/runs"
    cp "$2" "$work/runs/$1"
    printf '%s\n' "${@:3}" > "$work/runs/$1.args"
}

# make_runs FOLDER: makes the runs in a folder, whose files their words name. Each leaves its output, report and status in
# $work/NAME.output, $work/NAME.report and $work/NAME.status.
make_runs() {
    if [ -n "$program" ]; then
        run_by "$program" "$1"
    else
        run_unproved "$1"
    fi
}

# run_by PROGRAM FOLDER: makes the runs by a program.
run_by() {
    local run words
    for run in "$work"/runs/*.args; do
        run=$(basename "$run" .args)
        mapfile -t words < "$work/runs/$run.args"
        (cd "$2" && "$1" "${words[@]}") < "$work/runs/$run" > "$work/$run.output" 2> "$work/$run.report"
        echo $? > "$work/$run.status"
    done
}

run_unproved() {
    local folder file run sources watcher data=()
    folder=$(cd "$1" && pwd)
    for file in "$folder"/*; do
        data+=(--data "$(basename "$file")=$file")
    done
    sources=$(scripts/sources.sh)
    mkdir "$work/compiling"
    link_compiled &
    watcher=$!
    (cd crates/enf_cli && TMPDIR=$work/compiling rt try "${data[@]}" --cases "$work/runs") \
        > "$work/outputs" 2> "$work/reports"
    kill "$watcher" 2> /dev/null
    wait "$watcher" 2> /dev/null
    keep_compiled "$sources"
    for run in "$work"/runs/*.args; do
        run=$(basename "$run" .args)
        # The outputs stand one after another, each after the run's name; a report in front of the line with the status.
        awk -v run="== $run" '/^== / { is_it = $0 == run; next } is_it' "$work/outputs" > "$work/$run.output"
        awk -v run="case=$run" '
            $1 == run { printf "%s", report; exit }
            /^case=/ { report = ""; next }
            { report = report $0 "\n" }' "$work/reports" > "$work/$run.report"
        sed -n "s/^case=$run run=ended status=\([0-9]*\) .*/\1/p" "$work/reports" > "$work/$run.status"
        if [ ! -s "$work/$run.status" ]; then
            echo "The unproved program gave no answer; it has 60 seconds, and gives at most 1 MiB:" >&2
            cat "$work/reports" >&2
            exit 1
        fi
    done
}

# Gives the program of `rt try`, which keeps no file, a second name, once it is there.
link_compiled() {
    until find "$work/compiling" -type f -name 'program*' -exec ln {} "$work/compiled" \; -quit 2> /dev/null &&
        [ -e "$work/compiled" ]; do
        sleep 0.1
    done
}

# keep_compiled SOURCES: keeps the program for the next run, if it was linked and is whole.
keep_compiled() {
    if [ -x "$work/compiled" ] && [ "$("$work/compiled" gen 1 2 2> /dev/null | wc -l)" = 2 ]; then
        mkdir -p bin
        cp "$work/compiled" "$unproved"
        printf '%s\n' "$1" "$(sha256sum < "$unproved" | cut -d ' ' -f 1)" > "$unproved.sources"
    fi
}

# The lines of a file, or `(empty)`.
show_lines() {
    if [ -s "$1" ]; then
        sed 's/^/  /' "$1"
    else
        echo "  (empty)"
    fi
}

# Shows a log beside what was emitted: '-' came in, '+' is emitted in its place, all other lines pass unchanged.
show_changes() {
    if [ ! -s "$1" ] && [ ! -s "$2" ]; then
        echo "  (empty)"
    elif cmp -s "$1" "$2"; then
        show_lines "$1"
    else
        diff -U 100000 "$1" "$2" | tail -n +4 | sed '/^\\/d; s/^\(.\)/\1 /'
    fi
}

# Shows the report and the status of a run.
show_end() {
    echo "-- the report"
    show_lines "$work/$1.report"
    echo "-- the status: $(cat "$work/$1.status")"
}
