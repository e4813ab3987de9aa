#!/usr/bin/env bash
# Times the proved replay beside the plain Rust program (bench/plain.rs) on scripts of a
# million steps over 800 leaves with 8 trackers, for L = 64 and L = 9, in one run.
#
#   bench/replay.sh [REPLAY [ROUNDS]]      default: target/bin/replay, 15 rounds
#
# Both outputs must be identical. Each round runs both, one after the other; the ratio is
# of the best times (proved / plain: below 1 the proved program is faster). Where the proved
# program is emulated, its time says nothing: the outputs are compared and no ratio is printed.
set -euo pipefail
here=$(cd "$(dirname "$0")" && pwd)
launch=$here/../launch
replay=${1:-$here/../target/bin/replay}
rounds=${2:-15}
processor=$("$launch" --processor)
echo "replay: on $processor"
work=$(mktemp -d)
trap 'rm -rf "$work"' EXIT

rustc --edition 2021 -O "$here/plain.rs" -o "$work/plain"
rustc --edition 2021 -O "$here/make.rs" -o "$work/make"

# What the program takes for the script, in hundredths of a millisecond. It is started without
# the launcher, which takes a millisecond of its own: a time is taken where programs run straight.
time_of() {
    local begun=$EPOCHREALTIME
    "$1" < "$2" > /dev/null
    local ended=$EPOCHREALTIME
    echo $(((${ended/[.,]/} - ${begun/[.,]/}) / 10))
}

for l in 64 9; do
    script=$work/$l.script
    "$work/make" "$l" > "$script"
    "$launch" "$replay" < "$script" > "$work/proved.out"
    "$work/plain" < "$script" > "$work/plain.out"
    if ! cmp "$work/proved.out" "$work/plain.out"; then
        echo "bench: L = $l: the outputs differ" >&2
        exit 1
    fi
    if [[ $processor = *emulated* ]]; then
        echo "replay: L = $l: the outputs are the same; times under an emulator say nothing, so there is no ratio"
        continue
    fi
    proved= plain=
    for ((i = 0; i < rounds; i++)); do
        t=$(time_of "$replay" "$script")
        if [ -z "$proved" ] || ((t < proved)); then proved=$t; fi
        t=$(time_of "$work/plain" "$script")
        if [ -z "$plain" ] || ((t < plain)); then plain=$t; fi
    done
    awk -v l="$l" -v a="$proved" -v b="$plain" -v lines="$(wc -l < "$script")" -v rounds="$rounds" 'BEGIN {
        printf "replay: L = %d, %d lines, best of %d: proved %.1f ms, plain Rust %.1f ms, ratio %.2f\n",
            l, lines, rounds, a / 100, b / 100, a / b }'
done
