#!/usr/bin/env bash
# build.sh [CRATE]: proves the program and the crates below it, side by side where they do not wait for each other, says how
# far it is, and leaves the program as bin/enf beside bin/enf.sources, with the checksums of what it was built from and of
# itself, the commit and the kit. For enf_slice_cli it leaves bin/enf-slice, for another crate it only proves.
set -u -o pipefail
cd "$(dirname "$0")/.." || exit 1
crate=${1:-enf_cli}
log=bin/build.log
mkdir -p bin

# How many crates a crate stands on, itself among them.
count_crates() {
    awk -F: -v top="$1" '
        function add(name, parts, i, n) {
            if (name in seen || !(name in below)) return
            seen[name]
            count++
            n = split(below[name], parts, " ")
            for (i = 1; i <= n; i++) add(parts[i])
        }
        { below[$1] = $2 }
        END { add(top); print count + 0 }' crates.txt
}

# How many checks run at once: one for each processor, while there are 3 GB of memory for each.
checks_at_once() {
    local processors rooms
    processors=$(nproc)
    rooms=$(awk '/^MemAvailable:/ { print int($2 / 3000000) }' /proc/meminfo)
    echo $((rooms < 1 ? 1 : rooms < processors ? rooms : processors))
}

# Passes a line for each crate that is done, of what `rt all check` prints as each ends.
show_progress() {
    local count=0 line
    while IFS= read -r line; do
        case $line in
        '== summary') ;;
        '== '*)
            count=$((count + 1))
            echo "  $count of $1 after $((SECONDS / 60)) min: ${line#== }"
            ;;
        'logic=not-proved'* | 'rt: mend these first'*) echo "    $line" ;;
        esac
    done
}

# What the program is made from is noted before, since a proof takes long and files can be edited meanwhile.
sources=$(scripts/sources.sh) || exit 1
crates=$(count_crates "$crate")
echo "Proving $crate and what is below it, $crates crates, $(checks_at_once) at a time; all that is said goes to $log."
if ! (cd "crates/$crate" && rt all check --jobs "$(checks_at_once)" 2>&1) | tee "$log" | show_progress "$crates"; then
    echo "Not proved. The end of $log:" >&2
    tail -n 20 "$log" >&2
    exit 1
fi
if [ "$crate" = enf_slice_cli ]; then
    (cd crates/enf_slice_cli && rt run < stdin -- split data/raise.sig data/raise.keys 2) > /dev/null 2>> "$log" || exit 1
    cp crates/enf_slice_cli/out/enf_slice_cli bin/enf-slice
    echo "bin/enf-slice is the proved program."
fi
[ "$crate" = enf_cli ] || exit 0

# `rt run` links what is proved, and runs it once.
if ! (cd crates/enf_cli && rt run -- enforce ../../examples/access/access.sig ../../examples/access/access.policy \
    < ../../examples/access/access.log > /dev/null 2>> "../../$log"); then
    echo "The program was not built. The end of $log:" >&2
    tail -n 20 "$log" >&2
    exit 1
fi
if [ "$(scripts/sources.sh)" != "$sources" ]; then
    echo "Sources or the kit changed while they were proved, so there is no program of either: run make build again." >&2
    exit 1
fi
cp crates/enf_cli/out/enf_cli bin/enf
{
    printf '%s\n' "$sources"
    sha256sum < bin/enf | cut -d ' ' -f 1
    echo "commit $(git describe --always --dirty --abbrev=40 --exclude='*' 2> /dev/null || echo unknown)"
    rt version
} > bin/enf.sources
echo "bin/enf is the proved program."
