#!/usr/bin/env bash
# Builds and runs bench/NAME.rs, calls of libmodel.a beside plain Rust in one run.
#
#   bench/calls.sh archive [ROUNDS]    MB/s of the image test, writing and restoring
#   bench/calls.sh tagged [ROUNDS]     times of "is anything tagged between here and there"
#   bench/calls.sh harness [ROUNDS]    nanoseconds of a call on a state that is lent as words
#
# Where proved code is emulated, its time says nothing, and no ratio is printed.
set -euo pipefail
cd "$(dirname "$0")/.."
name=${1:?archive, tagged or harness}
shift
processor=$(./launch --processor)
echo "$name: on $processor"
if [[ $processor = *emulated* ]]; then
    echo "$name: times under an emulator say nothing, so there is no ratio"
    exit
fi
if [ ! -f target/staticlib/libmodel.a ]; then
    echo 'bench: the library target/staticlib/libmodel.a is not built; build it by: tools/build model' >&2
    exit 2
fi
work=$(mktemp -d)
trap 'rm -rf "$work"' EXIT
rustc --edition 2021 -O "bench/$name.rs" -o "$work/$name" -L target/staticlib -l static=model
./launch "$work/$name" "$@"
