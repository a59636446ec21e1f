//! The functions of ame.h, over slices and references. All unsafe code is here.

use crate::Limits;

/// What a run writes beside its texts.
#[repr(C)]
#[derive(Default)]
pub struct Whole {
    pub number: u64,
    pub lines: usize,
    pub certificate: usize,
    pub schedule: usize,
}

extern "C" {
    fn ame_version() -> u32;
    fn ame_check(certificate: *const u8, length: usize, room: *mut u8, room_length: usize, number: *mut u64, whole: *mut usize) -> u8;
    fn ame_types(text: *const u8, length: usize, rule: *mut u8, place: *mut u64) -> u8;
    fn ame_sim(
        text: *const u8, length: usize, seed: u32, limits: *const Limits, lines: *mut u8, lines_length: usize, certificate: *mut u8,
        certificate_length: usize, schedule: *mut u8, schedule_length: usize, whole: *mut Whole,
    ) -> u8;
    fn ame_replay(
        scheduled: *const u8, length: usize, limits: *const Limits, lines: *mut u8, lines_length: usize, certificate: *mut u8,
        certificate_length: usize, schedule: *mut u8, schedule_length: usize, whole: *mut Whole,
    ) -> u8;
    fn ame_weak(
        text: *const u8, length: usize, seed: u32, turns: u32, lines: *mut u8, lines_length: usize, certificate: *mut u8,
        certificate_length: usize, whole: *mut Whole,
    ) -> u8;
}

// Safety of each call: the pointers are of slices and references, which are never null, and no `&mut` overlaps another parameter.

pub fn version() -> u32 {
    unsafe { ame_version() }
}

pub fn check(certificate: &[u8], room: &mut [u8], number: &mut u64, whole: &mut usize) -> u8 {
    unsafe { ame_check(certificate.as_ptr(), certificate.len(), room.as_mut_ptr(), room.len(), number, whole) }
}

pub fn types(text: &[u8], rule: &mut u8, place: &mut u64) -> u8 {
    unsafe { ame_types(text.as_ptr(), text.len(), rule, place) }
}

pub fn sim(text: &[u8], seed: u32, limits: &Limits, rooms: &mut [Vec<u8>; 3], whole: &mut Whole) -> u8 {
    let [lines, certificate, schedule] = rooms;
    unsafe {
        ame_sim(
            text.as_ptr(), text.len(), seed, limits, lines.as_mut_ptr(), lines.len(), certificate.as_mut_ptr(), certificate.len(),
            schedule.as_mut_ptr(), schedule.len(), whole,
        )
    }
}

pub fn replay(scheduled: &[u8], limits: &Limits, rooms: &mut [Vec<u8>; 3], whole: &mut Whole) -> u8 {
    let [lines, certificate, schedule] = rooms;
    unsafe {
        ame_replay(
            scheduled.as_ptr(), scheduled.len(), limits, lines.as_mut_ptr(), lines.len(), certificate.as_mut_ptr(), certificate.len(),
            schedule.as_mut_ptr(), schedule.len(), whole,
        )
    }
}

pub fn weak(text: &[u8], seed: u32, turns: u32, rooms: &mut [Vec<u8>; 3], whole: &mut Whole) -> u8 {
    let [lines, certificate, _] = rooms;
    unsafe {
        ame_weak(
            text.as_ptr(), text.len(), seed, turns, lines.as_mut_ptr(), lines.len(), certificate.as_mut_ptr(), certificate.len(), whole,
        )
    }
}
