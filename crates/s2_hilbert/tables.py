#!/usr/bin/env python3
"""Writes src/tables.rt: what four levels of the curve give at each point and at each place.

Run in this folder: python3 tables.py > src/tables.rt && rt fmt
"""

QUADRANTS = [[0, 1, 3, 2], [0, 2, 3, 1], [3, 2, 0, 1], [3, 1, 0, 2]]
CHANGES = [1, 0, 0, 3]

HEAD = """//! What four levels of the curve give, for each orientation, at each point of their square and at
//! each place. Written by tables.py.

ghost use Rattle.std.specs.Prelude.{◌≡◌, ◌*◌, ◌/◌, ◌%◌, ◌<◌};
ghost use Rattle.s2_hilbert.specs.Curve as curve;

/// Four levels down to a point: its place along the curve, and 256 times the orientation there (`row`), the
/// index at which the table's entries for the next four levels begin.
pub struct FourPlaces {
    pub place: u8,
    pub row: u16,
}

/// Four levels down to a place: the coordinates of its point, and 256 times the orientation there (`row`).
pub struct FourPoints {
    pub i: u8,
    pub j: u8,
    pub row: u16,
}

// Entries, each of a place and an orientation.
macro_rules! places {
    ($($place:literal $turn:literal),* $(,)?) => {
        [$(FourPlaces { place: $place, row: 256 * $turn }),*]
    };
}

// Entries, each of two coordinates and an orientation.
macro_rules! points {
    ($($i:literal $j:literal $turn:literal),* $(,)?) => {
        [$(FourPoints { i: $i, j: $j, row: 256 * $turn }),*]
    };
}

/// Follows the curve of orientation `turn` four levels down to the point (`i`, `j`): the place of the point,
/// and 256 times the orientation there. `key` is `turn * 256 + i * 16 + j`.
pub fn place_four_levels_down(key: usize) -> &'static FourPlaces
    requires { key < 1024 }
    ensures place { result.now.place ≡ curve.place 4 (key / 256) (key / 16 % 16) (key % 16) }
    ensures row { result.now.row
        ≡ 256 * curve.turn_at 4 (key / 256) (key / 16 % 16) (key % 16) }
    ensures below { result.now.place < 256 }
{
    &PLACES[key]
}

/// Follows the curve of orientation `turn` four levels down to `place` (0 to 255): the coordinates of the
/// point there, and 256 times the orientation there. `key` is `turn * 256 + place`.
pub fn point_four_levels_down(key: usize) -> &'static FourPoints
    requires { key < 1024 }
    ensures place { curve.place 4 (key / 256) result.now.i result.now.j ≡ key % 256 }
    ensures row { result.now.row ≡ 256 * curve.turn_at 4 (key / 256) result.now.i result.now.j }
    ensures i { result.now.i < 16 }
    ensures j { result.now.j < 16 }
{
    &POINTS[key]
}
"""


def four_levels(turn: int, i: int, j: int) -> tuple[int, int]:
    """The place of a point in a square of 16 by 16, and the orientation there."""
    place = 0
    for bit in (3, 2, 1, 0):
        quadrant = 2 * (i >> bit & 1) + (j >> bit & 1)
        next_place = QUADRANTS[turn].index(quadrant)
        place = 4 * place + next_place
        turn ^= CHANGES[next_place]
    return place, turn


def print_table(name: str, entry_type: str, macro: str, entries: list[str]) -> None:
    print(f"\nstatic {name}: [{entry_type}; {len(entries)}] = {macro}![")
    for first in range(0, len(entries), 8):
        print("    " + ", ".join(entries[first : first + 8]) + ",")
    print("];")


places = []
points = [""] * 1024
for turn in range(4):
    for i in range(16):
        for j in range(16):
            place, after = four_levels(turn, i, j)
            places.append(f"{place} {after}")
            points[256 * turn + place] = f"{i} {j} {after}"

print(HEAD, end="")
print_table("PLACES", "FourPlaces", "places", places)
print_table("POINTS", "FourPoints", "points", points)
