#!/bin/sh
# Cells a second of Cells::push_run and of Cells::find_word on a list of 134217728 cells, the longest that is
# reserved. Needs rt on the path; the first run proves and builds the program.
set -eu
cd "$(dirname "$0")/../crates/bench_cells"
rt run <stdin >/dev/null

cells=134217726
searches=20

# The milliseconds of one run of the program: about so many cells, so many searches.
milliseconds() {
    begin=$(date +%s%N)
    printf '%s\n%s\n' "$1" "$2" | ./out/bench_cells >/dev/null
    end=$(date +%s%N)
    echo $(((end - begin) / 1000000))
}

pushes=$(milliseconds $cells 0)
both=$(milliseconds $cells $searches)
seek=$((both - pushes))
echo "push_run:  $((cells / (pushes + 1) / 1000)) million cells a second ($pushes ms for $cells cells)"
echo "find_word: $((cells / (seek + 1) * searches / 1000)) million cells a second ($seek ms for $searches searches through $cells cells)"
