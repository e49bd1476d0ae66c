#!/usr/bin/env bash
# Tries the wrong bodies that the gate leaves out, crates/CRATE/must-fail/*.md, in a copy: each must be refused. Takes the names of
# crates; each is proved once for its wrong bodies, and so is each library below it that the machine does not keep.
set -eu
cd "$(dirname "$0")/.."
[ $# -gt 0 ] || { echo "usage: bench/wrong_bodies.sh CRATE.." >&2; exit 2; }
room=$(mktemp -d)
trap 'rm -rf "$room"' EXIT
cp -r crates.txt HANDLES crates "$room"
cd "$room"
for crate; do
    rm -f "crates/$crate"/must-fail/*.edit
    for body in "crates/$crate"/must-fail/*.md; do
        mv "$body" "${body%.md}.edit"
    done
done
rt must-fail "$@"
