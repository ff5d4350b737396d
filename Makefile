# enf: a first run, files of one's own, the proved program, the tests.

.PHONY: help demo try build install recipes bench bars collisions limits environment refused check trusted test fmt clean service-deps service service-test slices cluster-demo

help:
	@echo 'make demo                            enforces the logs of examples/, shows what was changed, and checks two policies'
	@echo 'make try SIG=FILE POLICY=FILE [LOG=FILE]  the same for files of your own; without a log it checks the policy'
	@echo 'make build                           proves the program, which takes hours, and leaves it as bin/enf'
	@echo 'make install PREFIX=FOLDER           puts the proved program, its man page and the examples there'
	@echo 'make recipes                         runs what the documents show, and stops and resumes the examples, by the proved program'
	@echo 'make bench                           measures the proved program on generated logs, and the bars'
	@echo 'make bars                            measures what must not grow with what is remembered or pending'
	@echo 'make environment                     runs the proved program where what is around it fails'
	@echo 'make refused                         runs the proved program with each of its requests for memory refused in turn'
	@echo 'make collisions                      measures logs whose values collide in a hash with a known seed'
	@echo 'make limits                          measures the most costly policies that are accepted, and their check'
	@echo 'make check                           proves every crate, over what earlier checks kept; from nothing it takes hours'
	@echo 'make trusted                         prints what must be believed of the theorem, and fails where it is too much'
	@echo 'make test                            proves and tests everything (rt ci, and the service where Go is); from nothing it takes hours'
	@echo 'make service-deps                    installs what the service is built with, on Debian'
	@echo 'make service                         builds the service as bin/enfd'
	@echo 'make service-test                    looks the service over and runs its tests by the proved program'
	@echo 'make slices                          holds random policies and logs against what is said of slices, by the proved programs'
	@echo 'make cluster-demo                    enforces slices on four workers over three servers of NATS, kills one of each, and compares'
	@echo 'make fmt                             lays out the sources of every crate'
	@echo 'make clean                           removes what was built, the proved program too'

demo:
	@./scripts/demo.sh

try:
	@./scripts/try.sh "$(SIG)" "$(POLICY)" "$(LOG)"

build:
	@./scripts/build.sh
	@./scripts/build.sh enf_slice_cli

install:
	@./scripts/install.sh "$(PREFIX)"

recipes:
	@./scripts/recipes.sh
	@./scripts/resumed.sh

bench:
	@./scripts/bench.sh

bars:
	@./scripts/bars.py

collisions:
	@./scripts/collisions.py

limits:
	@./scripts/limits.py

environment:
	@./scripts/environment.py

refused:
	@./scripts/refused.py

check:
	rt all check

trusted:
	@./scripts/trusted.sh

test:
	rt ci
	@if command -v go > /dev/null; then ./scripts/service.sh test; else echo 'Go is not here: the service is not tried.'; fi

service-deps:
	apt-get update
	apt-get install -y --no-install-recommends golang-go golang-github-prometheus-client-golang-dev gcc libc6-dev

service:
	@./scripts/service.sh build

service-test:
	@./scripts/service.sh test

slices:
	@./scripts/slices.py

cluster-demo:
	@./scripts/cluster.sh

fmt:
	@for crate in crates/*/; do (cd "$$crate" && rt fmt) || exit 1; done
	@if command -v gofmt > /dev/null; then gofmt -w service/cmd service/internal; fi
	@echo 'The sources of every crate are laid out.'

clean:
	rm -rf bin out crates/*/out service/out
