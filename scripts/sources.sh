#!/usr/bin/env bash
# Prints one checksum of all that the proved program is made from: code, definitions, proofs, the list of crates and the kit.
cd "$(dirname "$0")/.." || exit 1
{
    rt version 2> /dev/null
    find crates -name out -prune -o -type f \( -name '*.rt' -o -name '*.antt' \) -print0 | LC_ALL=C sort -z | xargs -0 sha256sum
    sha256sum crates.txt
} | sha256sum | cut -d ' ' -f 1
