//! Says what opening an index answers: the set that it stands for, or the refusal and the part.
//! The scripts do not show it; it keeps the generator's picture of the slots right.

use crate::bits;
use crate::index::{Form, Index, Part};
use crate::sets::Set;

#[derive(Clone, Copy, PartialEq, Eq, Debug)]
pub struct Refused {
    pub number: u64,
    pub part: u64,
}

fn refused<T>(number: u64, part: u64) -> Result<T, Refused> {
    Err(Refused { number, part })
}

pub fn judge(index: &Index) -> Result<Set, Refused> {
    if index.last == 0 || index.last > 65_535 {
        return refused(1, 0);
    }
    match index.form {
        Form::Plain => plain(index),
        Form::List => list(index),
        Form::Zombit => zombit(index),
        Form::Pioneer => pioneer(index),
    }
}

fn plain(index: &Index) -> Result<Set, Refused> {
    let bytes = index.bytes(0);
    if bytes.len() as u64 != bits::bytes_for(index.last) {
        return refused(2, 1);
    }
    if bits::has_spare(bytes, index.last) {
        return refused(3, 1);
    }
    Ok(Set::of((1..=index.last).map(|bay| bits::bit(bytes, bay)).collect()))
}

fn list(index: &Index) -> Result<Set, Refused> {
    let mut set = Set::empty(index.last);
    let mut before = 0;
    if let Part::Numbers(numbers) = &index.parts[0] {
        for number in numbers {
            if *number <= before || *number > index.last {
                return refused(3, 1);
            }
            set.put(*number, true);
            before = *number;
        }
    }
    Ok(set)
}

fn zombit(index: &Index) -> Result<Set, Refused> {
    let (last, size) = (index.last, index.second);
    if !(2..=4_096).contains(&size) {
        return refused(4, 0);
    }
    let (uniform, marked, mixed) = (index.bytes(0), index.bytes(1), index.bytes(2));
    let blocks = last.div_ceil(size);
    if uniform.len() as u64 != bits::bytes_for(blocks) {
        return refused(2, 1);
    }
    if marked.len() as u64 != bits::bytes_for(blocks) {
        return refused(2, 2);
    }
    let written = (blocks - bits::ones(uniform, blocks).len() as u64) * size;
    if mixed.len() as u64 != bits::bytes_for(written) {
        return refused(2, 3);
    }
    for (part, (bytes, used)) in [(uniform, blocks), (marked, blocks), (mixed, written)].iter().enumerate() {
        if bits::has_spare(bytes, *used) {
            return refused(3, part as u64 + 1);
        }
    }
    for block in 0..blocks {
        let (same, any) = (bits::bit(uniform, block + 1), bits::bit(marked, block + 1));
        if (!same && !any) || (same && any && (block + 1) * size > last) {
            return refused(6, 2);
        }
    }
    let mut set = Set::empty(last);
    let mut before = 0;
    for block in 0..blocks {
        if bits::bit(uniform, block + 1) {
            let member = bits::bit(marked, block + 1);
            for bay in block * size + 1..=((block + 1) * size).min(last) {
                set.put(bay, member);
            }
            continue;
        }
        let mut ones = 0;
        for place in 1..=size {
            if bits::bit(mixed, before + place) {
                let bay = block * size + place;
                if bay > last {
                    return refused(6, 3);
                }
                set.put(bay, true);
                ones += 1;
            }
        }
        if ones == 0 || ones == size {
            return refused(6, 3);
        }
        before += size;
    }
    Ok(set)
}

fn pioneer(index: &Index) -> Result<Set, Refused> {
    let (last, count) = (index.last, index.second);
    if count > last {
        return refused(1, 0);
    }
    let (starts, sums) = (index.bytes(0), index.bytes(1));
    for (part, (bytes, used)) in [(starts, last), (sums, count)].iter().enumerate() {
        if bytes.len() as u64 != bits::bytes_for(*used) {
            return refused(2, part as u64 + 1);
        }
    }
    for (part, (bytes, used)) in [(starts, last), (sums, count)].iter().enumerate() {
        if bits::has_spare(bytes, *used) {
            return refused(3, part as u64 + 1);
        }
    }
    let (starts, sums) = (bits::ones(starts, last), bits::ones(sums, count));
    if starts.len() != sums.len() || (count > 0 && sums.last() != Some(&count)) {
        return refused(6, 2);
    }
    let mut set = Set::empty(last);
    let mut before = 0;
    for (run, start) in starts.iter().enumerate() {
        let behind = start + sums[run] - before;
        before = sums[run];
        if behind > last + 1 || starts.get(run + 1).is_some_and(|next| behind >= *next) {
            return refused(6, 2);
        }
        for bay in *start..behind {
            set.put(bay, true);
        }
    }
    Ok(set)
}
