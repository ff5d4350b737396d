#!/usr/bin/env bash
# service.sh build | test | load SECONDS | kills COUNT | power | offline: builds the service as bin/enfd, looks it over and
# runs its tests, puts it under load, kills it so often under load, cuts the power behind each change of its files, or fails
# where it cannot be built here without a network, by the Go at hand. What runs wants the program enf: bin/enf, or the one
# that the variable ENF names.
#
# On Debian the one dependency is taken from its package, offline. Elsewhere go takes it from go.mod and the registries.
set -u
cd "$(dirname "$0")/.." || exit 1
root=$PWD
if ! command -v go > /dev/null; then
    echo "Go is wanted, and is not here: 'make service-deps' installs it on Debian." >&2
    exit 1
fi
debian=/usr/share/gocode
if [ -d $debian/src/github.com/prometheus/client_golang ]; then
    gopath=$root/service/out/gopath
    mkdir -p "$gopath/src" && ln -sfn "$root/service" "$gopath/src/enfd" || exit 1
    export GO111MODULE=off GOFLAGS='' GOPATH=$gopath:$debian
    cd "$gopath/src/enfd" || exit 1
else
    export GOFLAGS=-mod=mod
    cd service || exit 1
fi

build() {
    mkdir -p "$root/bin" && go build -o "$root/bin/enfd" ./cmd/enfd && echo "bin/enfd is the service."
}

# Whether each file is laid out, nothing is odd, and the tests pass, with the detector of races where it can be had.
look_over() {
    local wrong race=()
    wrong=$(gofmt -l cmd internal)
    if [ -n "$wrong" ]; then
        printf 'gofmt would change these:\n%s\n' "$wrong" >&2
        return 1
    fi
    go vet ./... || return 1
    if command -v gcc > /dev/null; then
        race=(-race)
    fi
    go test "${race[@]}" ./... || return 1
    if [ -d $debian/src/github.com/nats-io/nats.go ]; then
        go vet -tags cluster ./internal/cluster ./cmd/enf-worker && go test "${race[@]}" -tags cluster ./internal/cluster
    fi
}

if [ -z "${ENF:-}" ]; then
    ENF=$root/bin/enf
    if [ ! -x "$ENF" ]; then
        # The gate leaves the program here.
        ENF=$root/crates/enf_cli/out/enf_cli
    fi
fi
export ENF

case ${1:-} in
build) build ;;
test) look_over ;;
load) ENFD_LOAD=${2:-5} go test -count=1 -v -run TestLoad ./cmd/enfd ;;
offline) GOPROXY=off go list -test -deps ./... > /dev/null ;;
kills) ENFD_KILLS=${2:-200} go test -count=1 -v -timeout 60m -run TestKills ./cmd/enfd ;;
power) ENFD_POWER=1 go test -count=1 -v -timeout 60m -run TestPowerLoss ./internal/enforcement ;;
*)
    echo 'usage: service.sh build | test | load SECONDS | kills COUNT | power | offline' >&2
    exit 1
    ;;
esac
