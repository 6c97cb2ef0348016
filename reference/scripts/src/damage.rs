//! Damages an index, in every way that opening has to find.

use crate::bits;
use crate::chance::Chance;
use crate::index::{Form, Index, Part};
use crate::numbers::FAR;
use crate::sizes;

/// One damage of a kind that the form can have. It may happen that the index stays lawful.
pub fn damage(chance: &mut Chance, index: &mut Index) {
    match chance.below(100) {
        0..=4 => longer(chance, index),
        5..=9 => shorter(chance, index),
        10..=12 => emptied(chance, index),
        13..=24 => spare(chance, index),
        25..=31 => wrong_last(chance, index),
        32..=40 => wrong_second(chance, index),
        41..=43 if index.parts.len() > 1 => exchanged(chance, index),
        44..=46 => washed(chance, index),
        47..=61 => flipped(chance, index),
        _ => match index.form {
            Form::Plain => flipped(chance, index),
            Form::List => in_list(chance, index),
            Form::Zombit => in_blocks(chance, index),
            Form::Pioneer => in_runs(chance, index),
        },
    }
}

fn any_part(chance: &mut Chance, index: &Index) -> usize {
    chance.below(index.parts.len() as u64) as usize
}

fn longer(chance: &mut Chance, index: &mut Index) {
    let number = any_part(chance, index);
    match &mut index.parts[number] {
        Part::Bytes(bytes) => {
            let byte = if chance.one_in(2) { 0 } else { chance.below(256) as u8 };
            let place = if chance.one_in(4) { 0 } else { bytes.len() };
            bytes.insert(place, byte);
        }
        Part::Numbers(numbers) => {
            let number = chance.choose(&[0, 1, index.last, index.last + 1, 65_535]).min(65_535);
            let place = if chance.one_in(4) { 0 } else { numbers.len() };
            numbers.insert(place, number);
        }
    }
}

fn shorter(chance: &mut Chance, index: &mut Index) {
    let number = any_part(chance, index);
    match &mut index.parts[number] {
        Part::Bytes(bytes) => drop(bytes.pop()),
        Part::Numbers(numbers) => drop(numbers.pop()),
    }
}

fn emptied(chance: &mut Chance, index: &mut Index) {
    let number = any_part(chance, index);
    match &mut index.parts[number] {
        Part::Bytes(bytes) => bytes.clear(),
        Part::Numbers(numbers) => numbers.clear(),
    }
}

/// How many bits of a part are used, as the numbers say.
fn used_bits(index: &Index, part: usize) -> u64 {
    match (index.form, part) {
        (Form::Plain, _) | (Form::Pioneer, 0) => index.last,
        (Form::List, _) => 0,
        (Form::Pioneer, _) => index.second,
        (Form::Zombit, 0 | 1) => index.last.div_ceil(index.second.max(1)),
        (Form::Zombit, _) => {
            let blocks = index.last.div_ceil(index.second.max(1));
            let uniform = index.bytes(0);
            let known = blocks.min(uniform.len() as u64 * 8);
            (known - bits::ones(uniform, known).len() as u64) * index.second
        }
    }
}

/// A bit after the last of a part, where there is room for one. Where there is none a bit anywhere is flipped.
fn spare(chance: &mut Chance, index: &mut Index) {
    let first = any_part(chance, index);
    for step in 0..index.parts.len() {
        let part = (first + step) % index.parts.len();
        let used = used_bits(index, part);
        if let Part::Bytes(bytes) = &mut index.parts[part] {
            let all = bytes.len() as u64 * 8;
            if all > used {
                let number = if chance.one_in(3) { used + 1 } else { chance.between(used + 1, all) };
                bits::flip(bytes, number);
                return;
            }
        }
    }
    flipped(chance, index);
}

/// One bit anywhere, or a few, in one part. In a list it is a bit of one number.
fn flipped(chance: &mut Chance, index: &mut Index) {
    let number = any_part(chance, index);
    let times = if chance.one_in(4) { chance.between(2, 4) } else { 1 };
    for _ in 0..times {
        match &mut index.parts[number] {
            Part::Bytes(bytes) if !bytes.is_empty() => {
                let place = chance.between(1, bytes.len() as u64 * 8);
                bits::flip(bytes, place);
            }
            Part::Numbers(numbers) if !numbers.is_empty() => {
                let place = chance.below(numbers.len() as u64) as usize;
                let width = chance.choose(&[4, 8, 16]);
                numbers[place] ^= 1 << chance.below(width);
            }
            _ => {}
        }
    }
}

fn wrong_last(chance: &mut Chance, index: &mut Index) {
    let last = index.last;
    let new = match chance.below(12) {
        0 | 1 => 0,
        2 => 65_535,
        3 => 65_536,
        4 => 4_294_967_295,
        5 => chance.choose(&FAR),
        6 | 7 => last.saturating_sub(1),
        8 | 9 => last + 1,
        10 => last / 8 * 8 + chance.choose(&[0, 1, 8, 9]),
        _ => last + 65_536,
    };
    index.last = new.min(4_294_967_295);
}

fn wrong_second(chance: &mut Chance, index: &mut Index) {
    let (last, second) = (index.last.min(65_536), index.second);
    index.second = match index.form {
        Form::Plain | Form::List => return wrong_last(chance, index),
        Form::Zombit => match chance.below(6) {
            0..=2 => chance.choose(&sizes::BAD),
            3 => second.saturating_sub(1),
            4 => (second + 1).min(4_294_967_295),
            _ => sizes::good(chance, last.max(1)),
        },
        Form::Pioneer => match chance.below(10) {
            0 => 0,
            1 | 2 => second.saturating_sub(1),
            3 | 4 => (second + 1).min(4_294_967_295),
            5 => last,
            6 | 7 => last + 1,
            8 => chance.choose(&FAR),
            _ => chance.between(0, last),
        },
    };
}

fn exchanged(chance: &mut Chance, index: &mut Index) {
    let one = any_part(chance, index);
    let other = (one + 1 + chance.below(index.parts.len() as u64 - 1) as usize) % index.parts.len();
    index.parts.swap(one, other);
}

/// A part of the right length, all zeros, all ones, or by chance.
fn washed(chance: &mut Chance, index: &mut Index) {
    let part = any_part(chance, index);
    let used = used_bits(index, part);
    if let Part::Bytes(bytes) = &mut index.parts[part] {
        let style = chance.below(3);
        for number in 1..=used.min(bytes.len() as u64 * 8) {
            let one = style == 1 || (style == 2 && chance.one_in(2));
            if bits::bit(bytes, number) != one {
                bits::flip(bytes, number);
            }
        }
    }
}

fn in_list(chance: &mut Chance, index: &mut Index) {
    let last = index.last;
    let Part::Numbers(numbers) = &mut index.parts[0] else { return };
    let length = numbers.len();
    let beyond = chance.choose(&[last + 1, last + 1, last + 8, 65_535]).min(65_535);
    if length == 0 {
        numbers.push(chance.choose(&[0, beyond]));
        return;
    }
    let place = chance.below(length as u64) as usize;
    match chance.below(6) {
        0 if length > 1 => {
            let place = place.min(length - 2);
            numbers.swap(place, place + 1);
        }
        1 if length > 1 => {
            let place = place.min(length - 2);
            numbers[place] = numbers[place + 1];
        }
        2 => numbers[0] = 0,
        3 => numbers[length - 1] = beyond,
        4 => {
            let double = numbers[place];
            numbers.insert(place, double);
        }
        _ => numbers[place] = chance.choose(&[0, 1, last.min(65_535), beyond, 65_535]),
    }
}

/// Damages that leave all lengths of a zombit index right, so that O or M must be found unlawful.
fn in_blocks(chance: &mut Chance, index: &mut Index) {
    let (last, size) = (index.last, index.second);
    if !(2..=4_096).contains(&size) || last == 0 || last > 65_535 {
        return flipped(chance, index);
    }
    let blocks = last.div_ceil(size);
    let [Part::Bytes(uniform), Part::Bytes(marked), Part::Bytes(mixed)] = &mut index.parts[..] else { return };
    let right = |bytes: &Vec<u8>, used: u64| bytes.len() as u64 == bits::bytes_for(used);
    if !right(uniform, blocks) || !right(marked, blocks) {
        return flipped(chance, index);
    }
    let written: Vec<u64> = (1..=blocks).filter(|block| !bits::bit(uniform, *block)).collect();
    if !right(mixed, written.len() as u64 * size) {
        return flipped(chance, index);
    }
    let mut row: Vec<bool> = (1..=written.len() as u64 * size).map(|number| bits::bit(mixed, number)).collect();
    let last_mixed = written.last() == Some(&blocks);
    match chance.below(8) {
        // A block changes between uniform and mixed, and its bits in M come or go.
        0 | 1 => {
            let block = if chance.one_in(3) { blocks } else { chance.between(1, blocks) };
            let before = written.iter().filter(|other| **other < block).count() * size as usize;
            if bits::bit(uniform, block) {
                let style = chance.below(3);
                let fresh = (0..size).map(|place| style == 1 || (style == 2 && place == 0));
                row.splice(before..before, fresh);
                if !bits::bit(marked, block) && chance.percent(70) {
                    bits::flip(marked, block);
                }
            } else {
                row.drain(before..before + size as usize);
            }
            bits::flip(uniform, block);
        }
        // The bit in O of a mixed block.
        2 | 3 if !written.is_empty() => {
            let block = chance.choose(&written);
            bits::flip(marked, block);
        }
        // The bit in O of the last block.
        4 => bits::flip(marked, blocks),
        // A bit of M past the last bay.
        5 if last_mixed && blocks * size > last => {
            let past = chance.choose(&[1, 1, blocks * size - last]);
            let place = row.len() as u64 - (blocks * size - last) + past - 1;
            row[place as usize] = true;
        }
        // A mixed block of M all zeros or all ones.
        _ if !written.is_empty() => {
            let place = chance.below(written.len() as u64) * size;
            let same = chance.one_in(2);
            row[place as usize..(place + size) as usize].fill(same);
        }
        _ => bits::flip(marked, blocks),
    }
    *mixed = bits::pack(&row);
}

/// Damages that leave all lengths of a pioneer index right, so that the parts must be found not to make an index.
fn in_runs(chance: &mut Chance, index: &mut Index) {
    let (last, count) = (index.last, index.second);
    let [Part::Bytes(starts), Part::Bytes(sums)] = &mut index.parts[..] else { return };
    if starts.len() as u64 != bits::bytes_for(last) || sums.len() as u64 != bits::bytes_for(count) || last == 0 {
        return flipped(chance, index);
    }
    match chance.below(8) {
        0 | 1 => moved(chance, starts, last),
        2 | 3 => moved(chance, sums, count),
        4 => {
            let place = chance.between(1, last);
            bits::flip(starts, place);
        }
        5 if count > 0 => {
            let place = chance.between(1, count);
            bits::flip(sums, place);
        }
        // Bit n of the sums.
        6 if count > 0 => bits::flip(sums, count),
        // Another number of members, and as many bits as that.
        _ => {
            let new = chance.choose(&[count.saturating_sub(1), (count + 1).min(last), (count + 2).min(last)]);
            let mut row: Vec<bool> = (1..=count).map(|number| bits::bit(sums, number)).collect();
            row.resize(new as usize, chance.one_in(2));
            if new > 0 && chance.one_in(2) {
                row[new as usize - 1] = true;
            }
            *sums = bits::pack(&row);
            index.second = new;
        }
    }
}

/// One of the ones goes to another place, mostly a near one.
fn moved(chance: &mut Chance, bytes: &mut [u8], used: u64) {
    let ones = bits::ones(bytes, used);
    if ones.is_empty() {
        return;
    }
    let from = chance.choose(&ones);
    let step = chance.choose(&[1, 1, 1, 2, 3, 8]);
    let to = if chance.one_in(2) { from.saturating_sub(step).max(1) } else { (from + step).min(used) };
    if !bits::bit(bytes, to) {
        bits::flip(bytes, from);
        bits::flip(bytes, to);
    }
}
