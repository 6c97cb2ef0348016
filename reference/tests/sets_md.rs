//! The examples of docs/SETS.md.

mod common;
use common::play;

#[test]
fn the_example() {
    play(&[
        ("open free list 16 1,2,3,8,9,10,11", "ok"),
        ("free next member 4", "8"),
        ("free next member 12", "none"),
        ("free previous member 7", "3"),
        ("free rank member 8", "4"),
        ("free select member 5", "9"),
        ("free next other 8", "12"),
        ("free rank other 8", "4"),
        ("free select other 5", "12"),
    ]);
}

#[test]
fn at_0_and_beyond() {
    play(&[
        ("open free list 16 1,2,3,8,9,10,11", "ok"),
        ("free last", "16"),
        ("free holds 0", "no"),
        ("free holds 1", "yes"),
        ("free holds 16", "no"),
        ("free holds 17", "no"),
        ("free holds 4294967295", "no"),
        ("free next member 0", "1"),
        ("free next other 0", "4"),
        ("free next other 16", "16"),
        ("free next other 17", "none"),
        ("free next other 4294967295", "none"),
        ("free previous member 0", "none"),
        ("free previous other 3", "none"),
        ("free previous member 4294967295", "11"),
        ("free previous other 4294967295", "16"),
        ("free rank member 0", "0"),
        ("free rank other 0", "0"),
        ("free rank member 4294967295", "7"),
        ("free rank other 4294967295", "9"),
        ("free select member 0", "none"),
        ("free select other 0", "none"),
        ("free select member 7", "11"),
        ("free select member 8", "none"),
        ("free select other 9", "16"),
        ("free select other 10", "none"),
        ("free select other 4294967295", "none"),
    ]);
}
