//! The examples of docs/FILLS.md.

mod common;
use common::play;

#[test]
fn what_is_written() {
    play(&[
        ("open free list 16 1,2,3,8,9,10,11", "ok"),
        ("fill free plain", "ok 16 8707"),
        ("fill free list", "ok 16 1,2,3,8,9,10,11"),
        ("fill free zombit 2", "ok 16 2 d5 3b 19"),
        ("fill free pioneer", "ok 16 7 8100 44"),
        ("fill free plain", "ok 16 8707"),
    ]);
}
