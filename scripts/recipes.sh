#!/usr/bin/env bash
# Runs what the documents show, policies and commands, by the proved program, or by the one that ENF names.
set -u
cd "$(dirname "$0")/.." || exit 1
. scripts/enf.sh
want_program
# A recipe that calls make writes the same, whether make called this or not.
unset MAKEFLAGS MAKELEVEL MFLAGS
status=0
scripts/documents.py policies || status=1
scripts/documents.py recipes || status=1
exit "$status"
