//! The functions of the library, as `include/bays.h` declares them.
use crate::{Fault, Report, Told};

extern "C" {
    pub fn bays_open(
        told: &Told,
        bytes: *const u8,
        bytes_length: usize,
        numbers: *const u16,
        numbers_length: usize,
    ) -> Fault;

    pub fn bays_ask(
        told: &Told,
        bytes: *const u8,
        bytes_length: usize,
        numbers: *const u16,
        numbers_length: usize,
        question: u32,
        sort: u32,
        places: *const u32,
        places_length: usize,
        answers: *mut u32,
        answers_length: usize,
    ) -> Fault;

    pub fn bays_measure(
        told: &Told,
        bytes: *const u8,
        bytes_length: usize,
        numbers: *const u16,
        numbers_length: usize,
        form: u32,
        size: u32,
        to: &mut Told,
    ) -> Fault;

    pub fn bays_fill(
        told: &Told,
        bytes: *const u8,
        bytes_length: usize,
        numbers: *const u16,
        numbers_length: usize,
        form: u32,
        size: u32,
        to: &mut Told,
        to_bytes: *mut u8,
        to_bytes_length: usize,
        to_numbers: *mut u16,
        to_numbers_length: usize,
    ) -> Fault;

    pub fn bays_sheet(
        free: &Told,
        free_bytes: *const u8,
        free_bytes_length: usize,
        free_numbers: *const u16,
        free_numbers_length: usize,
        class: &Told,
        class_bytes: *const u8,
        class_bytes_length: usize,
        class_numbers: *const u16,
        class_numbers_length: usize,
        place: u32,
        out: *mut u32,
        out_length: usize,
        report: &mut Report,
    ) -> Fault;

    pub fn bays_nearest(
        free: &Told,
        free_bytes: *const u8,
        free_bytes_length: usize,
        free_numbers: *const u16,
        free_numbers_length: usize,
        class: &Told,
        class_bytes: *const u8,
        class_bytes_length: usize,
        class_numbers: *const u16,
        class_numbers_length: usize,
        places: *const u32,
        places_length: usize,
        answers: *mut u32,
        answers_length: usize,
    ) -> Fault;

    pub fn bays_count(
        free: &Told,
        free_bytes: *const u8,
        free_bytes_length: usize,
        free_numbers: *const u16,
        free_numbers_length: usize,
        class: &Told,
        class_bytes: *const u8,
        class_bytes_length: usize,
        class_numbers: *const u16,
        class_numbers_length: usize,
        firsts: *const u32,
        firsts_length: usize,
        lasts: *const u32,
        lasts_length: usize,
        counts: *mut u32,
        counts_length: usize,
    ) -> Fault;
}
