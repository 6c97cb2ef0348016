//! The examples of docs/ROUND.md.

mod common;
use common::play;

const PAIR: (&str, &str) = ("pair plain 16 8707 16 1223", "ok");

#[test]
fn the_example() {
    play(&[
        PAIR,
        ("round", "ok"),
        ("next", "2 2"),
        ("next", "9 4"),
        ("next", "10 1"),
        ("next", "0 2"),
        ("close", "3 9 17"),
    ]);
}

#[test]
fn a_fresh_round() {
    play(&[
        PAIR,
        ("round", "ok"),
        ("sheet 2", "2 6 2 9"),
        ("round", "ok"),
        ("go 9", "ok"),
        ("next", "9 1"),
        ("go 9", "refused 10"),
        ("nearest 6", "8"),
        ("nearest 5", "3"),
    ]);
}

#[test]
fn the_refusals_in_their_order() {
    play(&[
        PAIR,
        ("round", "ok"),
        ("go 5", "ok"),
        ("go 0", "refused 7"),
        ("go 18", "refused 9"),
        ("go 4294967295", "refused 9"),
        ("go 4", "refused 10"),
        ("go 5", "ok"),
        ("count 0 1", "refused 7"),
        ("count 1 0", "refused 7"),
        ("count 18 17", "refused 7"),
        ("count 1 17", "refused 9"),
        ("count 1 16", "7"),
        ("count 3 8", "2"),
        ("nearest 0", "refused 7"),
        ("nearest 17", "refused 9"),
        ("nearest 16", "11"),
        ("sign 0", "refused 8"),
        ("sign 17", "refused 8"),
        ("sign 4294967295", "refused 8"),
        ("sign 1", "1"),
        ("sign 2", "refused 9"),
        ("sign 16", "refused 9"),
        ("pick 0", "refused 7"),
        ("pick 1", "1"),
        ("pick 7", "11"),
        ("pick 8", "refused 11"),
        ("go 17", "ok"),
        ("next", "0 0"),
        ("close", "0 0 17"),
    ]);
}

#[test]
fn the_last_bay_is_the_smaller_one() {
    play(&[
        ("pair list 16 1,8,12 10 12", "refused 3 list 1 class"),
        ("pair list 16 1,8,12 10 8", "ok"),
        ("round", "ok"),
        ("next", "8 2"),
        ("next", "0 1"),
        ("nearest 10", "8"),
        ("nearest 11", "refused 9"),
        ("pick 3", "refused 11"),
        ("count 1 11", "refused 9"),
        ("close", "1 3 11"),
        ("open free list 16 12", "ok"),
        ("round", "ok"),
        ("nearest 10", "none"),
        ("sign 1", "none"),
        ("pick 1", "refused 11"),
        ("next", "0 1"),
        ("close", "0 1 11"),
    ]);
}

#[test]
fn the_posts() {
    let posts = [
        1, 24, 49, 61, 97, 122, 148, 160, 203, 231, 256, 277, 310, 344, 371, 402,
    ];
    for (place, post) in posts.iter().enumerate() {
        let open = format!("open free list 402 {post}");
        let sign = format!("sign {}", place + 1);
        let short = format!("level class 1 {}", post - 1);
        let answer = post.to_string();
        play(&[
            (&open, "ok"),
            ("open class list 402 -", "ok"),
            ("round", "ok"),
            (&sign, &answer),
        ]);
        if *post > 1 {
            play(&[
                (&open, "ok"),
                ("open class list 402 -", "ok"),
                (&short, "ok"),
                ("round", "ok"),
                (&sign, "refused 9"),
            ]);
        }
    }
}
