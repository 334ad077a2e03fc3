#!/bin/sh
# Transitions a second through recover, on a usual track of five revolutions and on the longest track. Needs rt on
# the path; the first run proves and builds the program.
set -eu
cd "$(dirname "$0")/../crates/bench_loop"
rt run <stdin >/dev/null

# The milliseconds of one run of the program: so many transitions, so many recoveries, 1 for a track without a format.
milliseconds() {
    begin=$(date +%s%N)
    printf '%s\n%s\n%s\n' "$1" "$2" "$3" | ./out/bench_loop >/dev/null
    end=$(date +%s%N)
    echo $(((end - begin) / 1000000))
}

# A track's name, its transitions, how often they are recovered, and 1 where it has no format.
report() {
    made=$(milliseconds "$2" 0 "$4")
    both=$(milliseconds "$2" "$3" "$4")
    spent=$((both - made))
    total=$(($2 * $3))
    echo "$1: $((total / (spent + 1) / 1000)) million transitions a second ($spent ms for $3 times $2 transitions)"
}

report "five revolutions" 250000 80 0
report "longest track" 4194304 5 0
report "five revolutions without a format" 250000 20 1
