//! The Rattle side. Everything that crosses the C boundary is declared here, or in the bindings.

#[cfg(feature = "bindings")]
pub use crate::bindings::answer;

/// The answer's bytes to an input; no bytes where the library cannot take it.
#[cfg(all(feature = "rattle", not(feature = "bindings")))]
pub fn answer(kind: u8, input: &[u8]) -> Option<Vec<u8>> {
    use crate::kinds::MAX_BYTES;

    extern "C" {
        fn judge_answer(
            kind: u32,
            input: *const u8,
            input_len: usize,
            out: *mut u8,
            out_len: usize,
        ) -> usize;
    }
    // What is past the answer is not looked at; it starts out as something no answer relies on.
    let mut out = vec![0xa5; MAX_BYTES];
    // SAFETY: both pointers come with the lengths of live slices, and the function is proved to
    // stay within them.
    let count = unsafe {
        judge_answer(
            kind.into(),
            input.as_ptr(),
            input.len(),
            out.as_mut_ptr(),
            out.len(),
        )
    };
    assert!(count <= MAX_BYTES, "kind {kind} answered {count} bytes");
    out.truncate(count);
    Some(out)
}

/// Without the library our second reading answers, or nothing does.
#[cfg(not(any(feature = "rattle", feature = "bindings")))]
pub fn answer(kind: u8, input: &[u8]) -> Option<Vec<u8>> {
    crate::second::answer(kind, input)
}

/// What the answers of [`answer`] come from.
pub const SIDE: &str = if cfg!(feature = "bindings") {
    "the Rattle library through its Rust bindings"
} else if cfg!(feature = "rattle") {
    "the Rattle library"
} else {
    "the second reading (no library linked)"
};

/// One stage for the measurement: its results go into the room.
pub type Stage = fn(&crate::bench::Prepared, &mut crate::bench::Room);

/// The Rattle side of a stage by its name in the table; none where the library exports none.
#[cfg(not(feature = "rattle"))]
pub fn stage(_name: &str) -> Option<Stage> {
    None
}

/// The Rattle side of a stage by its name in the table; none where the library exports none.
#[cfg(feature = "rattle")]
pub fn stage(name: &str) -> Option<Stage> {
    Some(match name {
        "floor and region" => stages::region,
        "level" => stages::level,
        "extrema" => stages::extrema,
        "runs" => stages::runs,
        "repair" => stages::repair,
        "recovery" => stages::recovery,
        "nuclei" => stages::nuclei,
        "extras" => stages::extras,
        "boundaries" => stages::boundaries,
        "chain" => stages::chain,
        _ => return None,
    })
}

/// The stages under their C names. Every take has 2,048 frames, as many values in every track, and
/// the room as many entries in every list, which is all that the functions ask; a pitch is 0 or
/// within 40 to 2,000 Hz. Settings are the defaults.
#[cfg(feature = "rattle")]
mod stages {
    use crate::bench::{Prepared, Room};
    use crate::entry::MAX_FRAMES;
    use std::hint::black_box;

    extern "C" {
        fn judge_region(db: *const f32, frames: usize) -> u64;
        fn judge_level(db: *const f32, frames: usize, out: *mut f32, room: usize);
        fn judge_extrema(s: *const f32, frames: usize, out: *mut u32, room: usize) -> usize;
        fn judge_runs(
            pitch: *const f32,
            frames: usize,
            a: *mut u32,
            a_room: usize,
            b: *mut u32,
            b_room: usize,
        ) -> usize;
        fn judge_repair(pitch: *mut f32, frames: usize);
        fn judge_recover(
            pitch: *mut f32,
            frames: usize,
            samples: *const i16,
            samples_len: usize,
            speech: *const u8,
            speech_len: usize,
            vowel: *const u8,
            vowel_len: usize,
        );
        fn judge_nuclei(
            db: *const f32,
            frames: usize,
            pitch: *const f32,
            pitch_len: usize,
            start: usize,
            end: usize,
            list: *mut u32,
            list_room: usize,
            strengths: *mut f32,
            strengths_room: usize,
        ) -> usize;
        fn judge_extras(
            db: *const f32,
            frames: usize,
            pitch: *const f32,
            pitch_len: usize,
            sonority: *const f32,
            sonority_len: usize,
            start: usize,
            end: usize,
            nuclei: *const u32,
            nuclei_len: usize,
            list: *mut u32,
            list_room: usize,
            strengths: *mut f32,
            strengths_room: usize,
            edges: *mut u32,
            edges_room: usize,
        ) -> usize;
        fn judge_boundaries(
            db: *const f32,
            frames: usize,
            pitch: *const f32,
            pitch_len: usize,
            voiced_p: *const f32,
            voiced_p_len: usize,
            start: usize,
            end: usize,
            nuclei: *const u32,
            nuclei_len: usize,
            out: *mut u32,
            room: usize,
        ) -> usize;
        fn judge_chain(
            db: *const f32,
            frames: usize,
            pitch: *mut f32,
            pitch_len: usize,
            voiced_p: *const f32,
            voiced_p_len: usize,
            sonority: *const f32,
            sonority_len: usize,
            vowel: *const u8,
            vowel_len: usize,
            samples: *const i16,
            samples_len: usize,
            list: *mut u32,
            list_room: usize,
            strengths: *mut f32,
            strengths_room: usize,
            extras: *mut u32,
            extras_room: usize,
            extra_strengths: *mut f32,
            extra_strengths_room: usize,
            edges: *mut u32,
            edges_room: usize,
            boundaries: *mut u32,
            boundaries_room: usize,
        ) -> u32;
    }

    /// What every function below relies on.
    fn full(t: &Prepared, room: &Room) {
        let tracks = [&t.db, &t.pitch, &t.voiced_p, &t.sonority, &t.level];
        assert!(tracks.iter().all(|track| track.len() == MAX_FRAMES));
        let lists = [&room.frames, &room.extras, &room.edges];
        assert!(lists.iter().all(|list| list.len() == MAX_FRAMES));
        assert!(room.floats.len() == MAX_FRAMES && room.strengths.len() == MAX_FRAMES);
        assert!(room.boundaries.len() == MAX_FRAMES + 1);
        assert!(t.region.0 <= t.region.1 && t.region.1 as usize <= MAX_FRAMES);
    }

    pub fn repair(t: &Prepared, room: &mut Room) {
        full(t, room);
        // SAFETY: as the module says.
        unsafe { judge_repair(room.pitch.as_mut_ptr(), room.pitch.len()) };
    }

    pub fn recovery(t: &Prepared, room: &mut Room) {
        full(t, room);
        // SAFETY: as the module says.
        unsafe {
            judge_recover(
                room.pitch.as_mut_ptr(),
                room.pitch.len(),
                t.samples.as_ptr(),
                t.samples.len(),
                t.speech.as_ptr(),
                t.speech.len(),
                t.vowel.as_ptr(),
                t.vowel.len(),
            );
        }
    }

    pub fn nuclei(t: &Prepared, room: &mut Room) {
        full(t, room);
        // SAFETY: as the module says.
        black_box(unsafe {
            judge_nuclei(
                t.db.as_ptr(),
                t.db.len(),
                t.pitch.as_ptr(),
                t.pitch.len(),
                t.region.0 as usize,
                t.region.1 as usize,
                room.frames.as_mut_ptr(),
                room.frames.len(),
                room.floats.as_mut_ptr(),
                room.floats.len(),
            )
        });
    }

    pub fn extras(t: &Prepared, room: &mut Room) {
        full(t, room);
        // SAFETY: as the module says; the nuclei are the reference's own.
        black_box(unsafe {
            judge_extras(
                t.db.as_ptr(),
                t.db.len(),
                t.pitch.as_ptr(),
                t.pitch.len(),
                t.sonority.as_ptr(),
                t.sonority.len(),
                t.region.0 as usize,
                t.region.1 as usize,
                t.nuclei.as_ptr(),
                t.nuclei.len(),
                room.extras.as_mut_ptr(),
                room.extras.len(),
                room.strengths.as_mut_ptr(),
                room.strengths.len(),
                room.edges.as_mut_ptr(),
                room.edges.len(),
            )
        });
    }

    pub fn boundaries(t: &Prepared, room: &mut Room) {
        full(t, room);
        // SAFETY: as the module says; the nuclei are the reference's own.
        black_box(unsafe {
            judge_boundaries(
                t.db.as_ptr(),
                t.db.len(),
                t.pitch.as_ptr(),
                t.pitch.len(),
                t.voiced_p.as_ptr(),
                t.voiced_p.len(),
                t.region.0 as usize,
                t.region.1 as usize,
                t.nuclei.as_ptr(),
                t.nuclei.len(),
                room.boundaries.as_mut_ptr(),
                room.boundaries.len(),
            )
        });
    }

    pub fn chain(t: &Prepared, room: &mut Room) {
        full(t, room);
        // SAFETY: the chain asks nothing; each pointer comes with the length of a live slice.
        let refusal = unsafe {
            judge_chain(
                t.db.as_ptr(),
                t.db.len(),
                room.pitch.as_mut_ptr(),
                room.pitch.len(),
                t.voiced_p.as_ptr(),
                t.voiced_p.len(),
                t.sonority.as_ptr(),
                t.sonority.len(),
                t.vowel.as_ptr(),
                t.vowel.len(),
                t.samples.as_ptr(),
                t.samples.len(),
                room.frames.as_mut_ptr(),
                room.frames.len(),
                room.floats.as_mut_ptr(),
                room.floats.len(),
                room.extras.as_mut_ptr(),
                room.extras.len(),
                room.strengths.as_mut_ptr(),
                room.strengths.len(),
                room.edges.as_mut_ptr(),
                room.edges.len(),
                room.boundaries.as_mut_ptr(),
                room.boundaries.len(),
            )
        };
        assert_eq!(refusal, 0, "a take of the bench is refused");
    }

    pub fn region(t: &Prepared, _: &mut Room) {
        // SAFETY: the pointer comes with the length of a live slice of at most 2,048 frames.
        black_box(unsafe { judge_region(t.db.as_ptr(), t.db.len()) });
    }

    pub fn level(t: &Prepared, room: &mut Room) {
        // SAFETY: as above; the room is as long as the longest take.
        unsafe {
            judge_level(
                t.db.as_ptr(),
                t.db.len(),
                room.floats.as_mut_ptr(),
                room.floats.len(),
            );
        }
    }

    pub fn extrema(t: &Prepared, room: &mut Room) {
        // SAFETY: as above.
        black_box(unsafe {
            judge_extrema(
                t.level.as_ptr(),
                t.level.len(),
                room.edges.as_mut_ptr(),
                room.edges.len(),
            )
        });
    }

    pub fn runs(t: &Prepared, room: &mut Room) {
        // SAFETY: as above; the two lists are different ones.
        black_box(unsafe {
            judge_runs(
                t.pitch.as_ptr(),
                t.pitch.len(),
                room.edges.as_mut_ptr(),
                room.edges.len(),
                room.boundaries.as_mut_ptr(),
                room.boundaries.len(),
            )
        });
    }
}
