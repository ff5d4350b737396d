#!/usr/bin/env bash
# cluster.sh [RECORDS]: enforces the slices of a log on four workers over three nats-servers, all on loopback. One of each is
# killed in the middle. Then what came out of each partition is compared, byte for byte, with what `enf enforce` makes of its
# slice alone, and all of it together is audited.
#
# cluster.sh measure WORKERS [RECORDS]: so many workers on a log that is stored before, with nothing killed, and what it took.
#
# It wants enf (bin/enf, or the program that ENF names), enf-slice (bin/enf-slice, or ENF_SLICE), Go and nats-server with
# the Go client of NATS. Where one of the latter is not here they are Debian's, unpacked below out/cluster and installed
# nowhere. Where that cannot be it says so and ends with status 0.
set -u
cd "$(dirname "$0")/.." || exit 1
measured=''
if [ "${1:-}" = measure ]; then
    measured=${2:-4}
    shift 2
fi
records=${1:-20000}
partitions=8
count=${measured:-4}
root=$PWD
deps=$root/out/cluster
enf=$(realpath "${ENF:-bin/enf}" 2> /dev/null)
slice=$(realpath "${ENF_SLICE:-bin/enf-slice}" 2> /dev/null)
our=$root/examples/purposes/purposes

skip() {
    echo "cluster-demo is passed over: $*"
    exit 0
}

[ -x "$enf" ] || skip "bin/enf is not there ('make build' makes it, ENF names another)"
[ -x "$slice" ] || skip "bin/enf-slice is not there ('make build' makes it, ENF_SLICE names another)"

packages=(nats-server golang-1.19-go golang-1.19-src golang-github-nats-io-go-nats-dev golang-github-nats-io-nkeys-dev
    golang-github-nats-io-nuid-dev golang-golang-x-crypto-dev golang-golang-x-sys-dev golang-golang-x-text-dev)

# Leaves in $go, $server and $gocode what is built with and run.
find_tools() {
    go=$(command -v go) && server=$(command -v nats-server) && gocode=/usr/share/gocode &&
        [ -d $gocode/src/github.com/nats-io/nats.go ] && return
    go=$deps/usr/lib/go-1.19/bin/go
    server=$deps/usr/sbin/nats-server
    gocode=$deps/usr/share/gocode
    if [ ! -x "$go" ] || [ ! -x "$server" ] || [ ! -d "$gocode/src/github.com/nats-io/nats.go" ]; then
        command -v apt-get > /dev/null && command -v dpkg > /dev/null || skip "Go, nats-server or its client is not here"
        mkdir -p "$deps/packages"
        echo "Debian's packages of Go and NATS are fetched to out/cluster."
        (cd "$deps/packages" && apt-get download "${packages[@]}") > "$deps/fetched" 2>&1 ||
            skip "Go, nats-server or its client is not here, and cannot be fetched (out/cluster/fetched says why)"
        for package in "$deps"/packages/*.deb; do
            dpkg -x "$package" "$deps" || exit 1
        done
    fi
    export GOROOT=$deps/usr/lib/go-1.19
}

build() {
    mkdir -p "$deps/gopath/src" && ln -sfn "$root/service" "$deps/gopath/src/enfd" || exit 1
    (cd "$deps/gopath/src/enfd" &&
        GO111MODULE=off GOFLAGS='' GOPROXY=off GOPATH=$deps/gopath:$gocode GOCACHE=$deps/cache \
            "$go" build -tags cluster -o "$deps/enf-worker" ./cmd/enf-worker) || exit 1
}

find_tools
build
work=$(mktemp -d) || exit 1
pids=()
ended() {
    # Each by its number: these alone were started here.
    for pid in "${pids[@]}"; do kill -9 "$pid" 2> /dev/null; done
    wait 2> /dev/null
    rm -rf "$work"
}
trap ended EXIT
trap 'exit 1' INT TERM

# A log of customers who consent, withdraw, ask to be forgotten, and whose data is used.
awk -v records="$records" 'BEGIN {
    srand(7); time = 1767603600
    for (i = 0; i < records; i++) {
        time += int(rand() * 60)
        who = int(rand() * 2000); why = int(rand() * 3); what = rand()
        if (what < 0.4) event = sprintf("consent(\"customer-%d\",\"purpose-%d\")", who, why)
        else if (what < 0.9) event = sprintf("use(\"customer-%d\",\"purpose-%d\")", who, why)
        else if (what < 0.97) event = sprintf("withdraw(\"customer-%d\",\"purpose-%d\")", who, why)
        else event = sprintf("request(\"customer-%d\")", who)
        printf "@%d %s;\n", time, event
    }
}' > "$work/log"

"$slice" check $our.sig $our.policy $our.keys || exit 1
"$slice" split $our.sig $our.keys $partitions < "$work/log" > "$work/split" || exit 1

# Three servers, which find each other.
first=$((20000 + RANDOM % 20000))
routes=''
for i in 0 1 2; do routes+=",nats://127.0.0.1:$((first + 10 + i))"; done
servers=''
for i in 0 1 2; do
    servers+=",nats://127.0.0.1:$((first + i))"
    "$server" -a 127.0.0.1 -p $((first + i)) -n "server-$i" -js -sd "$work/server-$i" \
        -cluster "nats://127.0.0.1:$((first + 10 + i))" -cluster_name enf -routes "${routes#,}" \
        > "$work/server-$i.log" 2>&1 &
    pids+=($!)
    disown
done
killed_server=${pids[1]}
servers=${servers#,}
worker=("$deps/enf-worker" -servers "$servers" -partitions $partitions -replicas 3 -lease 3s -share 2 -batch "${BATCH:-500}"
    -enf "$enf" -signature $our.sig -policy $our.policy)

made=no
for _ in $(seq 60); do
    "${worker[@]}" make > "$work/made" 2>&1 && made=yes && break
    sleep 0.5
done
[ $made = yes ] || { cat "$work/made"; exit 1; }
echo "Three servers are up, with $partitions partitions."

# cpu PID..: the processor time of processes and of what they waited for, in seconds.
cpu() {
    for pid in "$@"; do sed 's/.*) //' "/proc/$pid/stat"; done |
        awk -v tick="$(getconf CLK_TCK)" '{ t += $12 + $13 + $14 + $15 } END { printf "%.2f", t / tick }'
}

if [ -n "$measured" ]; then
    "${worker[@]}" feed < "$work/split" || exit 1
    servers_before=$(cpu "${pids[@]}")
    before=$(cpu $$)
fi
workers=()
for ((i = 0; i < count; i++)); do
    "${worker[@]}" work "worker-$i" 2> "$work/worker-$i.log" &
    workers+=($!)
    pids+=($!)
done
began=$(date +%s.%N)
if [ -n "$measured" ]; then
    for pid in "${workers[@]}"; do wait "$pid" || { cat "$work"/worker-*.log; exit 1; }; done
    awk -v took="$(date +%s.%N) $began" -v all="$(cpu $$)" -v before="$before" -v servers="$(cpu "${pids[@]:0:3}")" \
        -v idle="$servers_before" -v records="$records" -v workers="$count" 'BEGIN {
            split(took, t, " "); s = t[1] - t[2]
            printf "%d workers, %d records: %.1f s, %.0f a second; a record takes %.0f us of a processor in workers and enf, " \
                "and %.0f us in the servers\n", workers, records, s, records / s, (all - before) / records * 1e6,
                (servers - idle) / records * 1e6
        }'
    exit 0
fi
"${worker[@]}" feed < "$work/split" &
feeder=$!
pids+=($feeder)

# In the middle: a quarter of the records is stored, or more.
sleep "${KILL_AFTER:-3}"
killed=$(date '+%H:%M:%S.%N')
disown "${workers[2]}"
kill -9 "${workers[2]}" && echo "worker-2 is killed at ${killed%??????}; it had:" && sed -n 's/.*worker-2: /  /p' "$work/worker-2.log"
if [ "${KILL_SERVER:-yes}" = yes ]; then
    sleep 2
    kill -9 "$killed_server" && echo "server-1 is killed at $(date '+%H:%M:%S.%N' | cut -c 1-12)."
fi

wait $feeder || exit 1
for i in 0 1 3; do wait "${workers[$i]}" || { cat "$work/worker-$i.log"; exit 1; }; done
took=$(echo "$(date +%s.%N) $began" | awk '{ printf "%.1f", $1 - $2 }')
echo "All partitions are done after $took s. What the others took over:"
grep -h 'from sequence' "$work"/worker-[013].log | awk -v at="${killed%??????}" '$2 > at { print "  " $0 }'

mkdir "$work/out"
"${worker[@]}" collect "$work/out" || exit 1
wrong=0
for ((i = 0; i < partitions; i++)); do
    sed -n "s/^$i://p" "$work/split" > "$work/slice"
    "$enf" enforce $our.sig $our.policy < "$work/slice" > "$work/alone.log" 2> "$work/alone.report" || exit 1
    cmp "$work/alone.log" "$work/out/$i.log" && cmp "$work/alone.report" "$work/out/$i.report" || wrong=1
done
[ $wrong = 0 ] || exit 1
echo "Each partition has the bytes that one run of enf on its slice gives, each once: $(cat "$work"/out/*.log | wc -l) steps," \
    "$(cat "$work"/out/*.report | wc -l) changes."
# All steps together, by their times.
cat "$work"/out/*.log | sed 's/^.\([0-9]*\)/\1 &/' | sort -s -n -k 1,1 | cut -d ' ' -f 2- > "$work/whole"
echo -n "All of it together, audited: "
"$enf" audit $our.sig $our.policy < "$work/whole"
