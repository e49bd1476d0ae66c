#!/bin/sh
# Lets each request for memory and each call on the system fail in turn, by bench/faults.py in a folder that is removed behind it.
# usage: bench/faults.sh PROGRAM
set -e
program=$(realpath "$1")
tries=$(realpath "$(dirname "$0")/faults.py")
folder=$(mktemp -d)
trap 'rm -rf "$folder"' EXIT
cd "$folder"
python3 "$tries" "$program"
