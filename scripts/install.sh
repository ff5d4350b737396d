#!/usr/bin/env bash
# install.sh PREFIX: puts the proved program, its man page, the documents and the examples where they belong under PREFIX, and
# the service where it was built.
set -u
cd "$(dirname "$0")/.." || exit 1
prefix=${1:-}
if [ -z "$prefix" ]; then
    echo "usage: make install PREFIX=FOLDER" >&2
    exit 1
fi
. scripts/enf.sh
if ! is_proved; then
    echo "bin/enf is not there or was built from other sources; 'make build' makes it" >&2
    exit 1
fi
if [ -x bin/enfd ]; then
    install -D -m 755 bin/enfd "$prefix/bin/enfd" || exit 1
fi
documents=$prefix/share/doc/enf
install -D -m 755 bin/enf "$prefix/bin/enf" &&
    install -D -m 644 docs/enf.1 "$prefix/share/man/man1/enf.1" &&
    install -D -m 644 -t "$documents" README.md &&
    install -D -m 644 -t "$documents/docs" docs/*.md docs/service.png || exit 1
for folder in examples/*/; do
    install -D -m 644 -t "$documents/$folder" "$folder"* || exit 1
done
# The third line of bin/enf.sources names the commit, the fourth the kit.
sed -n '3s/^/\nThis program was built from /; 4s/.*/with the kit `&`./; 3,4p' bin/enf.sources >> "$documents/README.md" &&
    install -m 644 examples/README.md "$documents/examples" &&
    echo "enf is installed: $prefix/bin/enf, man enf, $documents."
