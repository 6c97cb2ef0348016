//! The examples of docs/LIST.md.

mod common;
use common::play;

#[test]
fn the_example() {
    play(&[
        ("open free plain 16 8707", "ok"),
        ("fill free list", "ok 16 1,2,3,8,9,10,11"),
        ("free select other 5", "12"),
        ("open free list 11 1,2,3,8,9,10,11", "ok"),
        ("fill free plain", "ok 11 8707"),
        ("open free list 10 1,2,3,8,9,10,11", "refused 3 list 1"),
    ]);
}

#[test]
fn the_refusals_in_their_order() {
    play(&[
        ("open free list 0 1", "refused 1 list 0"),
        ("open free list 65536 0", "refused 1 list 0"),
        ("open free list 3 0", "refused 3 list 1"),
        ("open free list 3 0,1", "refused 3 list 1"),
        ("open free list 3 1,1", "refused 3 list 1"),
        ("open free list 3 2,1", "refused 3 list 1"),
        ("open free list 3 4", "refused 3 list 1"),
        ("open free list 3 1,2,3,4", "refused 3 list 1"),
        ("open free list 3 -", "ok"),
        ("fill free list", "ok 3 -"),
        ("open free list 65535 65535", "ok"),
        ("fill free list", "ok 65535 65535"),
        ("open free list 3 001,02,3", "ok"),
        ("fill free list", "ok 3 1,2,3"),
    ]);
}

#[test]
fn the_non_members_before_each_number() {
    play(&[
        ("open free list 16 1,2,3,8,9,10,11", "ok"),
        ("free rank other 1", "0"),
        ("free rank other 2", "0"),
        ("free rank other 3", "0"),
        ("free rank other 8", "4"),
        ("free rank other 9", "4"),
        ("free rank other 10", "4"),
        ("free rank other 11", "4"),
    ]);
}
