"""What a disk whose first track is captured with noise or drift comes to, by one clock and by two. Its other tracks have no sector.

The captures are those of bench/modules/case_captures.py. `bench/run rescued` prints what a second, plain reading of the definitions, which shares
nothing with the program, makes of them.
"""
from case_captures import captures, content_of
from shared import Disk, Row

# The verdicts of the first track's sectors by `decode`, and by `rescue`
VERDICTS = {
    # A track in single density: 26 sectors, the first of which begins at cell 1264 of a ring of 83328.
    # The bursts begin 60 cells before the first sector, from cell 1204 of each turn on. Clock 0 loses sector 1 in each turn, which
    # clock 1 alone reads.
    ("ibm-3740", "bursts before the first sector"): (
        "missing 0 0; 5 x good 4 0 1 25429 +3008; good 3 1 1 40469; 14 x good 3 0 1 43477 +3008; "
        "5 x good 4 0 0 1936 +3008",
        "good 4 0 1 1 22135; 5 x good 8 0 0 1 25429 +3008; good 6 2 0 1 40469; 14 x good 6 0 0 1 43477 +3008; "
        "5 x good 8 0 0 0 1936 +3008",
    ),
    # The burst lies in the data of sector 14, which no clock reads.
    ("ibm-3740", "bursts in the middle"): (
        "6 x good 4 0 1 22096 +3008; good 3 1 1 40144; 6 x good 3 0 1 43152 +3008; bad 0 3 1 61200; "
        "7 x good 3 0 1 64309 +3008; 5 x good 4 0 0 1936 +3008",
        "6 x good 8 0 0 1 22096 +3008; good 6 2 0 1 40144; 6 x good 6 0 0 1 43152 +3008; bad 0 6 0 1 61200; "
        "7 x good 6 0 0 1 64309 +3008; 5 x good 8 0 0 0 1936 +3008",
    ),
    # Distances of one cell and of two are told apart by both clocks.
    ("ibm-3740", "drift by a tenth"): (
        "6 x good 4 0 1 22096 +3008; good 3 1 1 40144; 14 x good 3 0 1 43152 +3008; 5 x good 4 0 0 1936 +3008",
        "6 x good 8 0 0 1 22096 +3008; good 6 2 0 1 40144; 14 x good 6 0 0 1 43152 +3008; 5 x good 8 0 0 0 1936 +3008",
    ),
    # A track in double density: 9 sectors, the first of which begins at cell 2528 of a ring of 100000.
    # The bursts begin 60 cells before the first sector, from cell 2468 of each turn on. After a burst clock 0 does not find its way
    # back. Clock 1 alone reads the sectors 1 to 7; the last two are also passed before the first burst.
    ("ibm-720", "bursts before the first sector"): (
        "7 x missing 0 0; 2 x good 1 0 0 775 +10464",
        "2 x good 4 0 1 1 27566 +10464; good 3 1 1 1 48494; 4 x good 3 0 1 1 58958 +10464; 2 x good 5 0 0 0 775 +10464",
    ),
    # The burst lies in the data of sector 5, which no clock reads. Clock 1 alone reads the two that follow.
    ("ibm-720", "bursts in the middle"): (
        "4 x good 1 0 1 27527 +10464; bad 0 1 1 69383; 2 x missing 0 0; 2 x good 1 0 0 775 +10464",
        "2 x good 5 0 0 1 27527 +10464; good 4 1 0 1 48455; good 4 0 0 1 58919; bad 0 4 0 1 69383; "
        "2 x good 3 0 1 1 79888 +10464; 2 x good 5 0 0 0 775 +10464",
    ),
    # Clock 0 reads all. Clock 1 reads what lies where cells are about as long as it takes them for: of the sectors 1, 5 and 6
    # nothing.
    ("ibm-720", "drift by a tenth"): (
        "2 x good 4 0 1 27527 +10464; good 3 1 1 48455; 4 x good 3 0 1 58919 +10464; 2 x good 4 0 0 775 +10464",
        "good 4 0 0 1 27527; good 8 0 0 1 37991; good 6 2 0 1 48455; good 3 3 0 1 58919; 2 x good 3 0 0 1 69383 +10464; "
        "good 6 0 0 1 90311; good 8 0 0 0 775; good 4 4 0 0 11239",
    ),
    # Neither clock reads all: what one loses by the drift the other loses by the bursts.
    ("ibm-720", "drift and bursts"): (
        "5 x missing 0 0; bad 0 3 1 96738; missing 0 0; 2 x good 1 0 0 775 +10464",
        "missing 0 0; good 4 0 1 1 39251; bad 0 4 1 1 49715; bad 0 3 1 1 60218; missing 0 0; bad 0 3 0 1 96738; "
        "good 3 0 1 1 90567; good 5 0 0 0 775; good 1 4 0 0 11239",
    ),
    # A track of the Amiga: 11 sectors, the first of which begins at cell 32 of a ring of 100000.
    # The bursts begin 60 cells before the first sector, from cell 28 before each turn on. After a burst clock 0 does not find its way
    # back. Clock 1 alone reads the sectors 0 to 8; the last two are also passed before the first burst.
    ("amiga", "bursts before the first sector"): (
        "9 x missing 0 0; 2 x good 1 0 0 3368 +8704",
        "2 x good 4 0 1 1 25076 +8704; good 3 1 1 1 42484; 6 x good 3 0 1 1 51188 +8704; 2 x good 5 0 0 0 3368 +8704",
    ),
    # The burst lies in the data of sector 5, which no clock reads. Clock 1 alone reads the three that follow.
    ("amiga", "bursts in the middle"): (
        "5 x good 1 0 1 25032 +8704; bad 0 1 1 68552; 3 x missing 0 0; 2 x good 1 0 0 3368 +8704",
        "2 x good 5 0 0 1 25032 +8704; good 4 1 0 1 42440; 2 x good 4 0 0 1 51144 +8704; bad 0 4 0 1 68552; "
        "3 x good 3 0 1 1 77297 +8704; 2 x good 5 0 0 0 3368 +8704",
    ),
    # Clock 0 reads all. Clock 1 reads what lies where cells are about as long as it takes them for: of the sectors 0, 5 and 6
    # nothing.
    ("amiga", "drift by a tenth"): (
        "2 x good 4 0 1 25032 +8704; good 3 1 1 42440; 6 x good 3 0 1 51144 +8704; 2 x good 4 0 0 3368 +8704",
        "good 4 0 0 1 25032; good 4 4 0 1 33736; good 6 2 0 1 42440; good 6 0 0 1 51144; good 3 3 0 1 59848; "
        "2 x good 3 0 0 1 68552 +8704; 2 x good 6 0 0 1 85960 +8704; good 8 0 0 0 3368; good 4 4 0 0 12072",
    ),
    # Neither clock reads all: what one loses by the drift the other loses by the bursts.
    ("amiga", "drift and bursts"): (
        "7 x missing 0 0; bad 0 3 1 103501; missing 0 0; 2 x good 1 0 0 3368 +8704",
        "2 x missing 0 0; bad 0 4 1 1 43338; good 3 0 1 1 52082; bad 0 3 1 1 60786; 2 x missing 0 0; bad 0 6 0 1 103501; "
        "bad 0 3 1 1 94545; good 5 0 0 0 3368; good 1 4 0 0 12072",
    ),
    # In the second turn the lowest bits of the bytes 3 and 7 of sector 0 are lost, 03 and 07, so that its data read 02 and 06 there.
    # The frame begins at cell 32 of the ring, its data 480 cells on with 128 odd halves of longs, 32 cells each, and then the even
    # halves. The two bits are the last ones of the even halves of the longs 0 and 1, and cancel in the check value: 512 + 4096 + 31
    # is the one, 32 cells on the other. A quarter of the ring stands before its first turn: sector 0 is at cell 25032 and, a turn
    # later, at cell 125032.
    ("amiga", "a damaged sector with a matching check value"): (
        "contradictory 4 0 1 25032 2 125032; good 4 0 1 33736; good 3 1 1 42440; 6 x good 3 0 1 51144 +8704; "
        "2 x good 4 0 0 3368 +8704",
        "contradictory 8 0 0 1 25032 0 2 125032; good 8 0 0 1 33736; good 6 2 0 1 42440; 6 x good 6 0 0 1 51144 +8704; "
        "2 x good 8 0 0 0 3368 +8704",
    ),
    # The same, and a burst before that sector: clock 0 reads the good sector alone, so `decode` calls it good; clock 1 reads it in
    # the first turn and the damaged one in the second, 42 cells further on, since it counts so many for the burst.
    ("amiga", "a damaged sector that one clock reads"): (
        "9 x good 1 0 1 25032 +8704; 2 x good 2 0 0 3368 +8704",
        "contradictory 5 0 0 1 25032 1 2 125074; good 5 0 0 1 33736; good 4 1 0 1 42440; 6 x good 4 0 0 1 51144 +8704; "
        "2 x good 6 0 0 0 3368 +8704",
    ),
    # A track of the 1541: 21 sectors, the first of which begins at cell 30 of a ring of 61488.
    # The bursts begin 60 cells before the first sector, from cell 30 before each turn on. Clock 0 loses sector 0 in each turn, which
    # clock 1 alone reads.
    ("c1541", "bursts before the first sector"): (
        "missing 0 0; 4 x good 4 0 1 18699 +2928; good 3 1 1 30411; 10 x good 3 0 1 33339 +2928; 5 x good 4 0 0 762 +2928",
        "good 4 0 1 1 15453; 4 x good 8 0 0 1 18699 +2928; good 6 2 0 1 30411; 10 x good 6 0 0 1 33339 +2928; "
        "5 x good 8 0 0 0 762 +2928",
    ),
    # The burst lies in the data of sector 10, which no clock reads.
    ("c1541", "bursts in the middle"): (
        "5 x good 4 0 1 15402 +2928; good 3 1 1 30042; 4 x good 3 0 1 32970 +2928; bad 0 3 1 44682; "
        "5 x good 3 0 1 47810 +2928; 5 x good 4 0 0 762 +2928",
        "5 x good 8 0 0 1 15402 +2928; good 6 2 0 1 30042; 4 x good 6 0 0 1 32970 +2928; bad 0 6 0 1 44682; "
        "5 x good 6 0 0 1 47810 +2928; 5 x good 8 0 0 0 762 +2928",
    ),
    # Clock 0 reads all. Of the sectors 0 and 10, at the begin and in the middle of a turn, clock 1 reads nothing.
    ("c1541", "drift by a tenth"): (
        "5 x good 4 0 1 15402 +2928; good 3 1 1 30042; 10 x good 3 0 1 32970 +2928; 5 x good 4 0 0 762 +2928",
        "good 4 0 0 1 15402; 4 x good 8 0 0 1 18330 +2928; good 6 2 0 1 30042; 4 x good 6 0 0 1 32970 +2928; "
        "good 3 0 0 1 44682; 5 x good 6 0 0 1 47610 +2928; 4 x good 8 0 0 0 762 +2928; good 4 4 0 0 12474",
    ),
    # A track of Apple: 16 sectors, the first of which begins at cell 330 of a ring of 49994.
    # The bursts begin 60 cells before the first sector, from cell 270 of each turn on. Clock 0 loses sector 0 in each turn, which
    # clock 1 alone reads.
    ("apple-do", "bursts before the first sector"): (
        "missing 0 0; 2 x good 4 0 1 16059 +3104; good 3 1 1 22267; 8 x good 3 0 1 25371 +3104; 4 x good 4 0 0 80 +3104",
        "good 4 0 1 1 12883; 2 x good 8 0 0 1 16059 +3104; good 6 2 0 1 22267; 8 x good 6 0 0 1 25371 +3104; "
        "4 x good 8 0 0 0 80 +3104",
    ),
    # The burst lies behind the data of sector 7. Clock 0 loses sector 8 by it, which clock 1 alone reads.
    ("apple-do", "bursts in the middle"): (
        "3 x good 4 0 1 12826 +3104; good 3 1 1 22138; 4 x good 3 0 1 25242 +3104; missing 0 0; "
        "3 x good 3 0 1 40852 +3104; 4 x good 4 0 0 80 +3104",
        "3 x good 8 0 0 1 12826 +3104; good 6 2 0 1 22138; 4 x good 6 0 0 1 25242 +3104; good 3 0 1 1 37708; "
        "3 x good 6 0 0 1 40852 +3104; 4 x good 8 0 0 0 80 +3104",
    ),
    # Distances of one cell, of two and of three are told apart by both clocks.
    ("apple-do", "drift by a tenth"): (
        "3 x good 4 0 1 12826 +3104; good 3 1 1 22138; 8 x good 3 0 1 25242 +3104; 4 x good 4 0 0 80 +3104",
        "3 x good 8 0 0 1 12826 +3104; good 6 2 0 1 22138; 8 x good 6 0 0 1 25242 +3104; 4 x good 8 0 0 0 80 +3104",
    ),
}


def rows():
    for name, form, stream in captures():
        for command, verdicts in zip(("decode", "rescue"), VERDICTS[form.word, name]):
            disk = Disk(form.word).track(stream, verdicts, content_of(form)).without()
            yield Row(f"{form.word}, {name}, {command}", [command, form.word], disk.input(), 1, disk.image(), disk.report())
