//! The examples of docs/PLAIN.md.

mod common;
use common::play;

#[test]
fn the_example() {
    play(&[
        ("open free list 16 1,2,3,8,9,10,11", "ok"),
        ("fill free plain", "ok 16 8707"),
        ("open free plain 11 8707", "ok"),
        ("fill free list", "ok 11 1,2,3,8,9,10,11"),
        ("open free plain 10 8707", "refused 3 plain 1"),
    ]);
}

#[test]
fn the_refusals_in_their_order() {
    play(&[
        ("open free plain 0 -", "refused 1 plain 0"),
        ("open free plain 0 01", "refused 1 plain 0"),
        ("open free plain 65536 -", "refused 1 plain 0"),
        ("open free plain 4294967295 -", "refused 1 plain 0"),
        ("open free plain 65535 -", "refused 2 plain 1"),
        ("open free plain 8 -", "refused 2 plain 1"),
        ("open free plain 8 00ff", "refused 2 plain 1"),
        ("open free plain 9 ff", "refused 2 plain 1"),
        ("open free plain 9 ff02", "refused 3 plain 1"),
        ("open free plain 9 ff01", "ok"),
        ("free rank member 9", "9"),
    ]);
}
