//! What is changed in the reference, all of it: the exact reading of the logarithm tests and the
//! level's zero. `old` occurs exactly once in its file, or the build stops.

pub struct Edit {
    pub file: &'static str,
    pub old: &'static str,
    pub new: &'static str,
}

pub const EDITS: &[Edit] = &[
    // A break of 3 semitones. The difference before it stays, since it carries the NaN test.
    Edit {
        file: "tonekit-core/src/syllable_runs.rs",
        old: "moved >= PITCH_BREAK_ST",
        new: "exact::breaks_3st(st[a], st[b])",
    },
    // What the break test is given: Hz, not semitones.
    Edit {
        file: "tonekit-segment/src/runs.rs",
        old: "12.0 * f64::from(hz).log2()",
        new: "f64::from(hz)",
    },
    // A step of at most 1.5 semitones between neighbouring estimates.
    Edit {
        file: "tonekit-f0/src/recover.rs",
        old: "(12.0 * (hz / prev).log2()).abs() <= MAX_STEP_ST",
        new: "exact::within_1_5st(prev, *hz)",
    },
    // The octave repair: Hz throughout, the middle pair kept apart, the deviation decided from
    // the three values.
    Edit {
        file: "tonekit-f0/src/repair.rs",
        old: "12.0 * (hz / REF_HZ).log2()",
        new: "hz",
    },
    Edit {
        file: "tonekit-f0/src/repair.rs",
        old: "st - median(&mut around)",
        new: "exact::octave_deviation(st, median(&mut around))",
    },
    Edit {
        file: "tonekit-f0/src/repair.rs",
        old: "-> f32 {",
        new: "-> (f32, f32) {",
    },
    Edit {
        file: "tonekit-f0/src/repair.rs",
        old: "  values[mid]\n",
        new: "  (values[mid], values[mid])\n",
    },
    Edit {
        file: "tonekit-f0/src/repair.rs",
        old: "0.5 * (values[mid - 1] + values[mid])",
        new: "(values[mid - 1], values[mid])",
    },
    // The level: its sum starts at +0.0, and the last addition writes a zero as +0.0.
    Edit {
        file: "tonekit-segment/src/smooth.rs",
        old: "window.iter().sum::<f32>() / window.len() as f32",
        new: "window.iter().fold(0.0, |sum, d| sum + d) / window.len() as f32 + 0.0",
    },
];

/// Text put after a file, so that a function private to it can be asked. It changes nothing.
pub struct Probe {
    pub file: &'static str,
    pub text: &'static str,
}

pub const PROBES: &[Probe] = &[Probe {
    file: "tonekit-f0/src/recover.rs",
    text: "
pub(crate) mod probe {
    pub(crate) fn stretches(estimates: &[Option<f64>]) -> Vec<(usize, usize)> {
        super::runs(estimates)
    }
    pub(crate) fn estimate(pcm: &[f32], centre: usize) -> Option<f64> {
        super::period_hz(pcm, centre)
    }
}
",
}];

/// The files that each crate is made of; `energy.rs` is not ported and is left out.
pub const CRATES: &[(&str, &[&str])] = &[
    ("tonekit-core", &["signal", "syllable_runs"]),
    ("tonekit-f0", &["nsdf", "recover", "repair"]),
    (
        "tonekit-segment",
        &[
            "boundaries",
            "extra",
            "nuclei",
            "region",
            "runs",
            "smooth",
            "split",
            "unpitched",
        ],
    ),
];
