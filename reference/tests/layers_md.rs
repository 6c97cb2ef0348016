//! The examples of docs/LAYERS.md.

mod common;
use common::play;

#[test]
fn turned() {
    play(&[
        ("open free plain 16 8707", "ok"),
        ("turn free", "ok"),
        ("free next member 8", "12"),
        ("free rank member 8", "4"),
        ("free select member 5", "12"),
        ("fill free list", "ok 16 4,5,6,7,12,13,14,15,16"),
    ]);
}

#[test]
fn level() {
    play(&[
        ("open free plain 16 8707", "ok"),
        ("level free 3 17", "refused 9"),
        ("level free 0 17", "refused 7"),
        ("level free 3 0", "refused 7"),
        ("level free 18 17", "refused 7"),
        ("level free 3 4294967295", "refused 9"),
        ("level free 3 16", "ok"),
        ("free last", "14"),
        ("free next member 2", "6"),
        ("free previous member 5", "1"),
        ("free rank member 14", "5"),
        ("free select other 5", "10"),
        ("fill free list", "ok 14 1,6,7,8,9"),
        ("level free 14 14", "ok"),
        ("free last", "1"),
    ]);
}

#[test]
fn turned_over_level_over_turned() {
    play(&[
        ("open free plain 16 8707", "ok"),
        ("turn free", "ok"),
        ("level free 3 16", "ok"),
        ("turn free", "ok"),
        ("fill free list", "ok 14 1,6,7,8,9"),
    ]);
}

#[test]
fn layers_over_each_form() {
    for open in [
        "open free plain 16 8707",
        "open free list 16 1,2,3,8,9,10,11",
        "open free zombit 16 2 d5 3b 19",
        "open free pioneer 16 7 8100 44",
    ] {
        play(&[
            (open, "ok"),
            ("turn free", "ok"),
            ("level free 3 16", "ok"),
            ("turn free", "ok"),
            ("fill free list", "ok 14 1,6,7,8,9"),
        ]);
    }
}
