//! The text that answers an input without a single byte (docs/CONSOLE.md, "An empty input").

pub const TEXT: &str = "\
Commands are read from standard input, one a line, and each is answered by one line. The two slots are free and class.
open SLOT FORM NUMBERS PARTS, pair FORM NUMBERS PARTS NUMBERS PARTS: open an index, or two by one call
\x20 the forms: plain U BITS, list U MEMBERS, zombit U B U-BITS O-BITS M-BITS, pioneer U N P-BITS L-BITS
fill SLOT FORM [B]: fill the set of the slot into a form; turn SLOT, level SLOT A B: put a layer in its place
SLOT last, SLOT holds I, SLOT next|previous|rank member|other I, SLOT select member|other K: ask the set of the slot
round, next, sheet N, go Q, count A B, nearest P, sign S, pick K, close: a round over both slots
An example: open free plain 16 8707
";
