#!/bin/sh
# Times of selection and linking for low code of 100,000 and 200,000 instructions, and their ratio: user and system, of twenty times
# in one process, the least of five. The time to read the low code itself is taken off. Builds op_measure where it has not been built.
set -eu
cd "$(dirname "$0")/../../crates/op_measure"
low_code=$(mktemp)
trap 'rm -f "$low_code"' EXIT
[ -x out/op_measure ] || rt run >/dev/null 2>&1

# user and system milliseconds of a command for the low code
milliseconds() {
    for turn in 1 2 3 4 5; do
        sh -c '"$@" >/dev/null; times' sh out/op_measure "$1" $(yes "$low_code" | head -n 20) | awk 'NR == 2 { split($1, user, /[ms]/); split($2, kernel, /[ms]/); print ((user[1] + kernel[1]) * 60 + user[2] + kernel[2]) * 50 }'
    done | sort -n | head -n 1
}

printf '%-14s %10s %10s %10s\n' instructions 'image' 'low code' 'the rest'
for count in 100000 200000; do
    ../../bench/backend/low_code $count >"$low_code"
    all=$(milliseconds build)
    low=$(milliseconds make)
    bytes=$(out/op_measure build "$low_code" | wc -c)
    awk -v n="$count" -v b="$bytes" -v a="$all" -v l="$low" 'BEGIN { printf "%-14d %8d B %7.1f ms %7.1f ms\n", n, b, l, a - l }'
done | awk '{ print; time[NR] = $6 } END { printf "200,000 take %.2f times as long as 100,000\n", time[2] / time[1] }'
