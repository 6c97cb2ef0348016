//! The examples of docs/ZOMBIT.md.

mod common;
use common::play;

#[test]
fn the_example() {
    play(&[
        ("open free plain 16 8707", "ok"),
        ("fill free zombit 2", "ok 16 2 d5 3b 19"),
        ("fill free plain", "ok 16 8707"),
        ("open free zombit 16 2 d5 3b 19", "ok"),
        ("fill free list", "ok 16 1,2,3,8,9,10,11"),
    ]);
}

#[test]
fn a_short_last_block() {
    play(&[
        ("open free plain 1 01", "ok"),
        ("fill free zombit 2", "ok 1 2 00 01 01"),
        ("open class zombit 1 2 00 01 01", "ok"),
        ("class holds 1", "yes"),
        ("class holds 2", "no"),
        ("open class zombit 1 2 01 01 -", "refused 6 zombit 2"),
        ("open class zombit 1 2 00 01 02", "refused 6 zombit 3"),
    ]);
}

#[test]
fn no_member() {
    play(&[
        ("open free plain 3 00", "ok"),
        ("fill free zombit 2", "ok 3 2 03 00 -"),
        ("open free zombit 3 2 03 00 -", "ok"),
        ("fill free plain", "ok 3 00"),
    ]);
}

#[test]
fn the_block_size() {
    play(&[
        ("fill free zombit 0", "refused 4 zombit 0"),
        ("fill free zombit 1", "refused 4 zombit 0"),
        ("fill free zombit 2", "ok 1 2 01 00 -"),
        ("fill free zombit 4096", "ok 1 4096 01 00 -"),
        ("fill free zombit 4097", "refused 4 zombit 0"),
        ("fill free zombit 4294967295", "refused 4 zombit 0"),
    ]);
}

#[test]
fn the_refusals_in_their_order() {
    play(&[
        ("open free zombit 0 0 - - -", "refused 1 zombit 0"),
        ("open free zombit 65536 2 - - -", "refused 1 zombit 0"),
        ("open free zombit 16 1 - - -", "refused 4 zombit 0"),
        ("open free zombit 16 4097 - - -", "refused 4 zombit 0"),
        ("open free zombit 16 2 - - -", "refused 2 zombit 1"),
        ("open free zombit 16 2 d5 - -", "refused 2 zombit 2"),
        ("open free zombit 16 2 d5 3b -", "refused 2 zombit 3"),
        ("open free zombit 16 2 d5 3b 1900", "refused 2 zombit 3"),
        ("open free zombit 6 2 08 08 ff", "refused 3 zombit 1"),
        ("open free zombit 6 2 00 08 ff", "refused 3 zombit 2"),
        ("open free zombit 6 2 00 00 ff", "refused 3 zombit 3"),
        ("open free zombit 6 2 00 00 3f", "refused 6 zombit 2"),
        ("open free zombit 6 2 00 07 3f", "refused 6 zombit 3"),
        ("open free zombit 6 2 00 07 01", "refused 6 zombit 3"),
        ("open free zombit 6 2 00 07 15", "ok"),
        ("fill free list", "ok 6 1,3,5"),
        // The zeros of U are counted among its first b bits only.
        ("open free zombit 6 2 ff 00 -", "refused 3 zombit 1"),
        ("open free zombit 6 2 f8 07 15", "refused 3 zombit 1"),
        ("open free zombit 5 2 07 04 -", "refused 6 zombit 2"),
        ("open free zombit 5 2 03 04 02", "refused 6 zombit 3"),
        ("open free zombit 5 2 03 04 01", "ok"),
        ("fill free list", "ok 5 5"),
    ]);
}
