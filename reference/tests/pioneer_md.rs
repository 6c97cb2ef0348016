//! The examples of docs/PIONEER.md.

mod common;
use common::play;

#[test]
fn the_example() {
    play(&[
        ("open free plain 16 8707", "ok"),
        ("fill free pioneer", "ok 16 7 8100 44"),
        ("open free pioneer 16 7 8100 44", "ok"),
        ("fill free list", "ok 16 1,2,3,8,9,10,11"),
    ]);
}

#[test]
fn no_member() {
    play(&[
        ("open free plain 3 00", "ok"),
        ("fill free pioneer", "ok 3 0 00 -"),
        ("open free pioneer 3 0 00 -", "ok"),
        ("fill free list", "ok 3 -"),
    ]);
}

#[test]
fn lawfulness() {
    play(&[
        ("open free pioneer 11 7 8100 44", "ok"),
        ("fill free plain", "ok 11 8707"),
        ("open free pioneer 10 7 8100 44", "refused 6 pioneer 2"),
        // The pioneers 1 and 4: the first run touches the second.
        ("open free pioneer 16 7 0900 44", "refused 6 pioneer 2"),
        // The pioneers 1 and 3: the first run reaches the second.
        ("open free pioneer 16 7 0500 44", "refused 6 pioneer 2"),
        ("open free pioneer 16 7 1100 44", "ok"),
        // Another number of ones.
        ("open free pioneer 16 7 8101 44", "refused 6 pioneer 2"),
        ("open free pioneer 16 7 0100 44", "refused 6 pioneer 2"),
        ("open free pioneer 16 0 0100 -", "refused 6 pioneer 2"),
        // Bit n of the sums is 0.
        ("open free pioneer 16 7 8100 24", "refused 6 pioneer 2"),
        ("open free pioneer 16 7 0000 00", "refused 6 pioneer 2"),
    ]);
}

#[test]
fn the_refusals_in_their_order() {
    play(&[
        ("open free pioneer 0 0 - -", "refused 1 pioneer 0"),
        ("open free pioneer 65536 0 - -", "refused 1 pioneer 0"),
        ("open free pioneer 16 17 - -", "refused 1 pioneer 0"),
        (
            "open free pioneer 4294967295 4294967295 - -",
            "refused 1 pioneer 0",
        ),
        ("open free pioneer 10 7 - -", "refused 2 pioneer 1"),
        ("open free pioneer 10 7 ffff -", "refused 2 pioneer 2"),
        ("open free pioneer 10 7 ffff ff", "refused 3 pioneer 1"),
        ("open free pioneer 10 7 ff03 ff", "refused 3 pioneer 2"),
        ("open free pioneer 10 7 ff03 7f", "refused 6 pioneer 2"),
        ("open free pioneer 3 3 01 04", "ok"),
        ("fill free list", "ok 3 1,2,3"),
    ]);
}
