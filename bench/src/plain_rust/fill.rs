// Filling an index of any form into any form, by way of the set as words.
use super::faults::{NUMBERS_SIZE, ROOM, check, of_second};
use super::index::{Index, with_index};
use super::set::Set;
use super::words::{WORDS, Words};
use super::{list, pioneer, plain, zombit};
use crate::form::Form;
use crate::told::{Fault, Stored, Told};

// A set as words, with its last bay.
struct Decoded {
    words: Words,
    last: u32,
}

fn decode(stored: Stored) -> Result<Decoded, Fault> {
    let index = Index::open(stored)?;
    let mut decoded = Decoded { words: [0; WORDS], last: index.last() };
    with_index!(index, set => set.decode(&mut decoded.words));
    Ok(decoded)
}

fn bytes_for(bits: u32) -> usize {
    bits.div_ceil(8) as usize
}

// What the set takes in a form.
fn tell(set: &Decoded, form: Form) -> Result<Told, Fault> {
    let last = set.last;
    let members = || set.words.iter().map(|word| word.count_ones()).sum::<u32>();
    let (number, first, second, third) = match form {
        Form::Plain => (0, bytes_for(last), 0, 0),
        Form::List => (0, members() as usize, 0, 0),
        Form::Zombit(size) => {
            check(zombit::is_size(size), NUMBERS_SIZE, 0)?;
            let row = bytes_for(last.div_ceil(size));
            (size, row, row, bytes_for(zombit::count_mixed(&set.words, last, size) * size))
        }
        Form::Pioneer => {
            let count = members();
            (count, bytes_for(last), bytes_for(count), 0)
        }
    };
    Ok(Told { form: form.number(), last, number, first, second, third })
}

// Cuts the memory of each part off the front, or refuses by the first part that has no room.
fn cut_rooms<'a>(told: &Told, bytes: &'a mut [u8], numbers: &'a mut [u16]) -> Result<([&'a mut [u8]; 3], &'a mut [u16]), Fault> {
    let lengths = if told.form == Form::List.number() { [0; 3] } else { [told.first, told.second, told.third] };
    let mut rest = bytes;
    let mut parts: [&mut [u8]; 3] = Default::default();
    for ((part, length), number) in parts.iter_mut().zip(lengths).zip(1..) {
        check(rest.len() >= length, ROOM, number)?;
        let (front, behind) = std::mem::take(&mut rest).split_at_mut(length);
        (*part, rest) = (front, behind);
    }
    let numbers_length = if told.form == Form::List.number() { told.first } else { 0 };
    check(numbers.len() >= numbers_length, ROOM, 1)?;
    Ok((parts, &mut numbers[..numbers_length]))
}

fn write(set: &Decoded, form: Form, bytes: &mut [u8], numbers: &mut [u16]) -> Result<Told, Fault> {
    let told = tell(set, form)?;
    let (parts, numbers) = cut_rooms(&told, bytes, numbers)?;
    match (form, parts) {
        (Form::Plain, [bits, ..]) => plain::encode(&set.words, set.last, bits),
        (Form::List, _) => list::encode(&set.words, numbers),
        (Form::Zombit(size), parts) => zombit::encode(&set.words, set.last, size, parts),
        (Form::Pioneer, [starts, sums, _]) => pioneer::encode(&set.words, set.last, starts, sums),
    }
    Ok(told)
}

/// What the set of an index takes in a form.
pub fn measure(stored: Stored, form: Form) -> Result<Told, Fault> {
    tell(&decode(stored)?, form).map_err(of_second)
}

/// Fills the set of an index in a form to the fronts of two memories.
pub fn fill(stored: Stored, form: Form, bytes: &mut [u8], numbers: &mut [u16]) -> Result<Told, Fault> {
    write(&decode(stored)?, form, bytes, numbers).map_err(of_second)
}
