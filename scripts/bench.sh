#!/usr/bin/env bash
# Measures `enf gen`, and `enf enforce` on what it gives: the rate and the peak memory, and of `enforce` the instructions
# for each byte where valgrind is installed, for logs of two sizes, under the empty policy and under one rule. Then what a
# record costs that has many events, wakes one of many rules or passes many deadlines, what the records of a log cost under
# policies that ask the past and look ahead, what a state and its open duties cost, and the figures of bars.py.
set -u
cd "$(dirname "$0")/.." || exit 1
. scripts/enf.sh
. scripts/twelve.sh
. scripts/steady.sh
if ! is_proved; then
    echo "bin/enf is not there or was built from other sources; 'make build' makes it" >&2
    exit 1
fi
work=$(mktemp -d) || exit 1
trap 'rm -rf "$work"' EXIT
read -ra steady < <(steady "$work")

# measure NAME SIZE INPUT OUTPUT WORD..: the rate over the input or the output and the peak memory of a run.
measure() {
    local bytes seconds memory
    /usr/bin/env python3 - "${@:3}" > "$work/figures" <<'PYTHON'
import os, re, subprocess, sys, time
source, target, *words = sys.argv[1:]
begun, memory = time.monotonic(), 0
with open(source, 'rb') as log, open(target, 'wb') as output:
    enf = subprocess.Popen(['bin/enf'] + words, stdin=log, stdout=output, stderr=subprocess.DEVNULL)
# It is looked for while it runs, since what is told of a child afterwards is at least what python3 has.
while enf.poll() is None:
    with open('/proc/%d/status' % enf.pid) as status:
        found = re.search(r'VmHWM:\s*(\d+)', status.read())
    memory = int(found.group(1)) if found else memory
    time.sleep(0.001)
seconds = time.monotonic() - begun
size = os.path.getsize(source if source != os.devnull else target)
print('%d %.3f %d' % (size, seconds, memory))
sys.exit(enf.returncode)
PYTHON
    read -r bytes seconds memory < "$work/figures"
    awk -v name="$1" -v size="$2" -v bytes="$bytes" -v seconds="$seconds" -v memory="$memory" 'BEGIN {
        printf "%-6s %-6s %9.1f MB %8.2f s %8.1f MB/s %8d KiB at most\n", name, size, bytes / 1e6, seconds, bytes / 1e6 / seconds, memory
    }'
}

cp tests/generated/generated.sig "$work/signature"
: > "$work/empty"
: > "$work/none.log"
cp tests/generated/generated.policy "$work/raise"
bin/enf gen 1 2000 > "$work/tiny.log"
bin/enf gen 1 20000 > "$work/records.log"
measure gen small /dev/null "$work/small.log" gen 1 100000
measure gen large /dev/null "$work/large.log" gen 1 1000000

# instructions POLICY LOG [SIGNATURE]: how many instructions a run takes.
instructions() {
    "${steady[@]}" valgrind --tool=callgrind --callgrind-out-file=/dev/null bin/enf enforce "$work/${3:-signature}" "$work/$1" \
        < "$work/$2.log" 2>&1 > /dev/null | sed -n 's/.*Collected : //p'
}

# for_records POLICY LOG [SIGNATURE]: how many of them the records of the log take.
for_records() {
    echo $(($(instructions "$@") - $(instructions "$1" none "${3:-signature}")))
}

# is_enforced POLICY [SIGNATURE]: whether the policy is enforced, which is said where it is not.
is_enforced() {
    bin/enf enforce "$work/${2:-signature}" "$work/$1" < /dev/null || return 1
}

# compare WHAT MORE FEW: how many times the one is as much as the other.
compare() {
    awk -v what="$1" -v more="$2" -v few="$3" 'BEGIN { printf "%s: %.0f, %.2f times %.0f\n", what, more, more / few, few }'
}

for policy in empty raise; do
    for size in small large; do
        measure "$policy" "$size" "$work/$size.log" /dev/null enforce "$work/signature" "$work/$policy"
    done
    if command -v valgrind > /dev/null; then
        few=$(instructions "$policy" tiny)
        more=$(instructions "$policy" small)
        size=$(($(wc -c < "$work/small.log") - $(wc -c < "$work/tiny.log")))
        echo "$policy: $(((more - few) / size)) instructions for each byte"
    fi
done

command -v valgrind > /dev/null || exit 0

# A record of many events that each owe one, and one of half as many.
echo 'rule at_once: forall u. request(u) -> delete(u);' > "$work/at-once"
for count in 1000 2000; do
    echo "@1$(seq -f ' request("u%.0f")' -s '' "$count");" > "$work/$count.log"
done
is_enforced at-once &&
    compare 'instructions for a record of 2,000 requests' "$(for_records at-once 2000)" "$(for_records at-once 1000)"

# The same where each owes one by a deadline, and all the deadlines pass at once.
echo 'rule erase: forall u. request(u) -> eventually[0,30] delete(u);' > "$work/erase"
for count in 1000 2000; do
    (cat "$work/$count.log" && echo '>32;') > "$work/passed-$count.log"
done
is_enforced erase &&
    compare 'instructions for 2,000 deadlines that pass at once' \
        "$(for_records erase passed-2000)" "$(for_records erase passed-1000)"

# Records that each wake one rule, of sixty-four and of that one alone.
for rule in $(seq 0 63); do
    echo "g$rule(text); c$rule(text) +;" >> "$work/many"
    echo "rule r$rule: forall u. g$rule(u) -> c$rule(u);" >> "$work/sixty-four"
done
grep '^rule r7:' "$work/sixty-four" > "$work/alone"
seq -f '@%.0f g7("u");' 1000 > "$work/woken.log"
is_enforced sixty-four many &&
    compare 'instructions for 1,000 records that wake one of 64 rules' \
        "$(for_records sixty-four woken many)" "$(for_records alone woken many)"

# each_record POLICY LOG [SIGNATURE]: what each of 20,000 records takes.
each_record() {
    is_enforced "$1" "${3:-signature}" &&
        echo "$1: $(($(instructions "$@") / 20000)) instructions for each record, all in all"
}

# The records of a generated log, under a rule that asks the past, one that looks ahead, and a policy of both and an until.
echo 'rule consent: forall u. use(u) -> once[0,*] consent(u);' > "$work/consent"
echo 'rule hold: forall u. lock(u) -> (not use(u)) until[0,10] unlock(u);' > "$work/hold"
cat "$work/consent" "$work/erase" "$work/hold" > "$work/sample"
each_record consent records
each_record erase records
each_record sample records

# Twelve rules of all kinds, over a log of as many records.
write_twelve "$work" 20000
each_record twelve twelve personal

# write_state POLICY RULE ROWS DUTIES: a state of so many kept rows, and of so many open duties of a rule.
write_state() {
    /usr/bin/env python3 - "$work/signature" "$work/$1" "${@:2}" << 'PYTHON'
import sys
signature, policy = (open(name).read() for name in sys.argv[1:3])
rule, rows, duties = map(int, sys.argv[3:])
print('enfstate 1\nsignature %d\n%s\npolicy %d\n%s' % (len(signature), signature, len(policy), policy))
print('clock %d\nlast %d\nposition %d' % (duties, duties, duties))
for number in range(rows):
    print('row 0 %d "u%06d"' % (number, number))
for number in range(duties):
    print('due %d 1 %d %d %d "u%06d"' % (rule, number, number, number + 1000000, number))
print('end')
PYTHON
}

# resumed POLICY STATE LOG: how many instructions a run takes that goes on from a state and saves one.
resumed() {
    "${steady[@]}" valgrind --tool=callgrind --callgrind-out-file=/dev/null bin/enf enforce "$work/signature" "$work/$1" \
        --resume "$work/$2" --save "$work/again" < "$work/$3.log" 2>&1 > /dev/null | sed -n 's/.*Collected : //p'
}

# A state of as many kept rows as open duties, 200,000 lines, resumed and saved again.
echo 'rule erase: forall u. request(u) -> eventually[0,1000000] delete(u);' > "$work/open"
cat "$work/consent" "$work/open" > "$work/kept"
write_state kept 1 100000 100000 > "$work/state"
taken=$(resumed kept state none)
cmp "$work/state" "$work/again" &&
    echo "a line of a state, resumed and saved again: $((taken / 200000)) instructions"

# Beside 10,000 and 100,000 open duties: a step that touches none, a delete that ends one, and all deadlines, one by one.
echo '>3000000;' > "$work/passed.log"
for count in 10000 100000; do
    write_state open 0 0 "$count" > "$work/$count"
    seq 1000 | sed "s/.*/@$count ping();/" > "$work/untouched.log"
    seq -f "@$count delete(\"u%06.0f\");" 0 999 > "$work/deletes.log"
    none=$(resumed open "$count" none)
    echo "$(resumed open "$count" passed) $((($(resumed open "$count" untouched) - none) / 1000))" \
        "$((($(resumed open "$count" deletes) - none) / 1000))" > "$work/beside-$count"
done
read -r passed step ended < "$work/beside-10000"
read -r all_passed full_step full_ended < "$work/beside-100000"
compare 'instructions for a step beside 100,000 open duties that touches none' "$full_step" "$step"
compare 'instructions for a delete that ends one of 100,000' "$full_ended" "$ended"
compare 'instructions for 100,000 deadlines that pass one after the other' "$all_passed" "$passed"

# The memory of 600,000 open duties.
seq 600000 | sed 's/.*/@& request("u&");/' > "$work/requests.log"
measure open large "$work/requests.log" /dev/null enforce "$work/signature" "$work/open"
read -r _ _ memory < "$work/figures"
echo "an open duty: $((memory * 1024 / 600000)) bytes, all in all"

# What the enforcement of a generated log takes under the sample policy, without its text.
bin/enf drill 1 200000

# What must not grow with what is remembered or pending.
scripts/bars.py
