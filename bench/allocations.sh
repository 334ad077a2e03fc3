#!/bin/sh
# Refuses each allocation of a run in turn: the run has to end with code 7, or with 9 where the system's call for the words
# has no memory, and to have called neither read nor write. A run of which none is refused has to take no memory after its
# first read. Needs a C compiler.
#
# usage: bench/run allocations [PROGRAM]     (PROGRAM: crates/flux/out/flux)
top=$(cd "$(dirname "$0")/.." && pwd)
program=$(realpath "${1:-$top/crates/flux/out/flux}")
work=$(mktemp -d)
trap 'rm -rf "$work"' EXIT
cd "$work" || exit 1
cc -O1 -shared -fPIC -o counts.so "$top/bench/modules/allocations.c" -ldl || exit 1

# The shortest good stream, disks of it, and an image.
cp "$top/crates/flux/stdin" stream
for _ in $(seq 77); do cat stream; done > disk
for _ in $(seq 80); do cat stream; done > pc_disk
head -c 143360 /dev/zero > image
: > empty

wrong=0
complain() {
    echo "$1"
    wrong=1
}

# sweep INPUT STATUS WORD..: the run ends with STATUS where nothing is refused.
sweep() {
    input=$1 wanted=$2
    shift 2
    number=0
    while :; do
        number=$((number + 1))
        REFUSE=$number LD_PRELOAD=$work/counts.so "$program" "$@" < "$input" 3> counts > out 2> notes
        status=$?
        read -r _ allocations _ late _ reads _ writes < counts
        test "$allocations" -lt "$number" && break
        case $status in
            7 | 9) ;;
            *) complain "$*: allocation $number is refused, and the code is $status" ;;
        esac
        test "$reads $writes" = "0 0" || complain "$*: allocation $number is refused after a read or a write"
    done
    test "$status" = "$wanted" || complain "$*: the code is $status"
    test "$late" = 0 || complain "$*: $late allocations after the first read"
    echo "$*: each of $allocations allocations refused; none after the first read"
}

sweep stream 0 turns
sweep disk 1 decode ibm-3740
sweep disk 1 report ibm-3740
sweep pc_disk 1 decode ibm-360
sweep empty 2 write amiga
sweep image 0 write apple-do

# The commands that the program may have besides.
has() {
    "$program" "$@" < empty > out 2> notes
    test $? != 3
}
head -c 174848 /dev/zero > commodore_image
has trial apple-do 1 && sweep empty 0 trial apple-do 1
has to-g64 c1541 && sweep commodore_image 0 to-g64 c1541
has from-g64 c1541 && sweep empty 2 from-g64 c1541
has decode-set apple-do 2 && sweep disk 1 decode-set apple-do 2
has rescue apple-do && sweep disk 1 rescue apple-do
has map apple-do && sweep disk 1 map apple-do
mkdir dump
for track in $(seq -w 0 34); do cp stream "dump/track$track.0.raw"; done
has decode-folder apple-do dump && sweep empty 1 decode-folder apple-do dump
has read apple-do dump && sweep empty 1 read apple-do dump dump
has identify dump && sweep empty 1 identify dump
exit $wrong
