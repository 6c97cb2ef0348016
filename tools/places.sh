#!/bin/sh
# Lists the places in the code that today's forms may say plainer, point by point: `tools/places.sh [FOLDER]`, the folder that has crates/.
# A row is a place to look at, and no verdict; docs/DESIGN-PASS.md says what became of each.
cd "${1:-.}" || exit 1

# A point, and the lines of src/ that fit a pattern.
point() {
    echo "== $1: $(grep -rnE "$2" crates/*/src --include=*.rt | wc -l)"
    grep -rnE "$2" crates/*/src --include=*.rt
}

point '1 own enums, numbers for kinds, Options by hand' 'enum [A-Z]|=> [0-9]+,$|: u8,$|return None;|else \{ None \}|^ +None$'
point '2 functions that stand by the same name in several crates or types' '^ *(pub |pub\(crate\) )?fn (open|open_from|empty|at|of|check[a-z_]*|into_below|is_of|up_to|at_most|within|lift|turn|refused|is_as_it_was|opens|opened|open_front|ask|walk|beyond|questions|runs_and_single_bays|none_and_all|far_apart|every_set_of_eight_bays|members_to|members_before|block_with|other|place_in_word|[a-z]+_in_block)\b'
point '2 the share of a sort' 'Sort::Others => (i|to|all|k \* self.size) - '
point '3 loops' '\bwhile\b|\bfor [a-z_]+ in .*\.\.|^ +[a-z.]+ = [a-z.]+\.saturating_add\((1|size)\);|^ +[a-z]+ \+= 1;'
point '4 equality, conversion and printing by hand' '^impl.*(Display|From|TryFrom|PartialEq|Ord|Clone|Copy|Default|Not|Error).* for |fn (number|turn|is_as_it_was)\b|derive\((Drop, )?Clone, Copy\)\]'
point '5 the sets of a round and facts of several contracts' 'let f = F\.Walking\.meant|requires (small|size|last) \{ (length|BlockSize|LastBay)|last: u32, size: u32|^ +size: u32,$'
echo "== 5 facts that three or more contracts ask, with how many do"
grep -rhoE "requires ([a-z_]+ )?\{[^}]*\}" crates/*/src --include=*.rt | sed 's/requires [a-z_]* *//' | sort | uniq -c | awk '$1 >= 3'
point '6 buffers with a length beside' '(\], usize\)|: \[u?[a-z0-9]+; [0-9]+\],|-> \[bool; [0-9]+\])'
point '7 a switch on which step to run, and halving by hand' 'match self\.kind|while (lo < hi|high - low > 1|width > 1)'
files() { git ls-files "crates/*/proofs/*$1"; }
echo "== 8 answers: $(cat $(files Answers.antt) | grep -c '^pub .* : goal'), lines of proofs: $(cat $(files .antt) | wc -l)"
