//! The C functions, as include/kiddwyr.h declares them.

use crate::{Nucleus, Settings};

#[repr(C)]
pub struct Answer {
    pub refusal: u32,
    pub count: usize,
}

#[repr(C)]
pub struct Span {
    pub refusal: u32,
    pub found: bool,
    pub start: u32,
    pub end: u32,
}

#[repr(C)]
pub struct Counted {
    pub refusal: u32,
    pub extras: usize,
    pub edges: usize,
}

#[repr(C)]
pub struct Marks {
    pub refusal: u32,
    pub found: bool,
    pub start: u32,
    pub end: u32,
    pub nuclei: usize,
    pub extras: usize,
    pub edges: usize,
    pub boundaries: usize,
}

extern "C" {
    pub fn kiddwyr_version() -> u32;

    pub fn kiddwyr_defaults() -> Settings;

    pub fn kiddwyr_classic() -> Settings;

    pub fn kiddwyr_speech_marks(
        db: *const f32,
        db_len: usize,
        settings: Settings,
        marks: *mut u8,
        marks_room: usize,
    ) -> Answer;

    pub fn kiddwyr_region(db: *const f32, db_len: usize, settings: Settings) -> Span;

    pub fn kiddwyr_repair(pitch: *mut f32, pitch_len: usize) -> u32;

    pub fn kiddwyr_recover(
        pitch: *mut f32,
        pitch_len: usize,
        samples: *const i16,
        samples_len: usize,
        speech: *const u8,
        speech_len: usize,
        vowel: *const u8,
        vowel_len: usize,
    ) -> u32;

    pub fn kiddwyr_nuclei(
        db: *const f32,
        db_len: usize,
        pitch: *const f32,
        pitch_len: usize,
        start: usize,
        end: usize,
        settings: Settings,
        list: *mut Nucleus,
        list_room: usize,
    ) -> Answer;

    pub fn kiddwyr_extras(
        db: *const f32,
        db_len: usize,
        pitch: *const f32,
        pitch_len: usize,
        sonority: *const f32,
        sonority_len: usize,
        start: usize,
        end: usize,
        nuclei: *const Nucleus,
        nuclei_len: usize,
        settings: Settings,
        list: *mut Nucleus,
        list_room: usize,
        edges: *mut u32,
        edges_room: usize,
    ) -> Counted;

    pub fn kiddwyr_boundaries_with(
        db: *const f32,
        db_len: usize,
        pitch: *const f32,
        pitch_len: usize,
        voiced: *const f32,
        voiced_len: usize,
        start: usize,
        end: usize,
        nuclei: *const Nucleus,
        nuclei_len: usize,
        settings: Settings,
        out: *mut u32,
        out_room: usize,
    ) -> Answer;

    pub fn kiddwyr_boundaries(
        db: *const f32,
        db_len: usize,
        pitch: *const f32,
        pitch_len: usize,
        voiced: *const f32,
        voiced_len: usize,
        start: usize,
        end: usize,
        nuclei: *const Nucleus,
        nuclei_len: usize,
        out: *mut u32,
        out_room: usize,
    ) -> Answer;

    pub fn kiddwyr_chain(
        db: *const f32,
        db_len: usize,
        pitch: *mut f32,
        pitch_len: usize,
        voiced: *const f32,
        voiced_len: usize,
        sonority: *const f32,
        sonority_len: usize,
        vowel: *const u8,
        vowel_len: usize,
        samples: *const i16,
        samples_len: usize,
        settings: Settings,
        nuclei: *mut Nucleus,
        nuclei_room: usize,
        extras: *mut Nucleus,
        extras_room: usize,
        edges: *mut u32,
        edges_room: usize,
        boundaries: *mut u32,
        boundaries_room: usize,
    ) -> Marks;
}
