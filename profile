#!/usr/bin/env bash
# profile FILE TEST OUTPUT: whether a description writes its output before its test has ended. Builds the program `profile`, which is proved, if that has not been done yet.
set -eu
if [ $# -ne 3 ] || [ ! -r "$1" ]; then
    echo "usage: ./profile FILE TEST OUTPUT    judges the description in FILE by the names of the body that tests and of the carrier that is put out" >&2
    exit 2
fi
text=$(realpath "$1")
cd "$(dirname "$0")"
tools/build profile
exec tools/run profile "$2" "$3" < "$text"
