//! The examples of docs/OPENING.md.

mod common;
use common::play;

#[test]
fn a_pair() {
    play(&[
        ("pair plain 16 8707 16 1223", "ok"),
        ("fill free list", "ok 16 1,2,3,8,9,10,11"),
        ("fill class list", "ok 16 2,5,9,10,14"),
        ("pair plain 10 8707 16 1223", "refused 3 plain 1 free"),
        ("pair plain 10 8707 17 1223", "refused 3 plain 1 free"),
        ("pair plain 16 0000 17 1223", "refused 2 plain 1 class"),
        ("fill free plain", "ok 16 8707"),
        ("fill class plain", "ok 16 1223"),
    ]);
}

#[test]
fn a_pair_of_each_form() {
    play(&[
        ("pair list 16 1,2,3,8,9,10,11 16 2,5,9,10,14", "ok"),
        ("pair list 0 - 0 -", "refused 1 list 0 free"),
        ("pair zombit 16 2 d5 3b 19 1 2 00 01 01", "ok"),
        (
            "pair zombit 16 2 d5 3b 19 1 2 01 01 -",
            "refused 6 zombit 2 class",
        ),
        ("pair pioneer 16 7 8100 44 3 0 00 -", "ok"),
        (
            "pair pioneer 3 0 00 - 10 7 8100 44",
            "refused 6 pioneer 2 class",
        ),
        ("fill free plain", "ok 16 8707"),
        ("fill class plain", "ok 3 00"),
    ]);
}
