#!/bin/sh
# What it costs to take a lock's turn and to put the value back, beside std's Mutex in plain Rust, in one run; and what a
# send and a receive cost through a shared buffer, beside the same ring under std's Mutex of the kit.
# Usage: bench/lock.sh [CALLS], calls of each pass; without it a million.
set -e
cd "$(dirname "$0")/.."
calls=${1:-1000000}
plain=$(mktemp)
trap 'rm -f "$plain"' EXIT
rustc -O --edition 2024 -o "$plain" bench/mutex.rs
(cd crates/lock_bench && rt run >/dev/null 2>&1)
for round in 1 2 3; do
    echo "round $round, the counting lock (Rattle)"
    crates/lock_bench/out/lock_bench "$calls"
    echo "round $round, std's Mutex (Rust)"
    "$plain" "$calls"
done
