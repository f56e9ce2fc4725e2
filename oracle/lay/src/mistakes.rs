//! Mistakes that are planted in the reference and in our reading of the specification, to see
//! whether the replay list notices them. Each is a reading that somebody could have: a limit off by
//! one, a tie the other way, another track, a rule left out, two things in the other order.
//!
//! They are numbered from 1 in the order of this table. One build holds all of them, and at most one
//! is made at a time. A mistake that changes no answer to any input says why.

/// A place in a file, and what could stand there by mistake.
pub struct Place {
    /// The stage or the part of the judge that it belongs to.
    pub stage: &'static str,
    pub file: &'static str,
    /// Text that occurs exactly once in the file. What is replaced is marked by « and », all of it
    /// if nothing is; it is an expression, or some statements, or nothing at a place where a
    /// statement can stand.
    old: &'static str,
    pub wrong: &'static [Wrong],
}

pub struct Wrong {
    pub words: &'static str,
    pub new: &'static str,
    /// Why no answer differs, where none does.
    pub same: Option<&'static str>,
}

impl Place {
    /// What stands before the marked text, that text, and what stands after it.
    pub fn parts(&self) -> (&'static str, &'static str, &'static str) {
        let parts = self.old.split_once('«').and_then(|(before, rest)| {
            let (marked, after) = rest.split_once('»')?;
            Some((before, marked, after))
        });
        parts.unwrap_or(("", self.old, ""))
    }
}

/// Every mistake with its number and its place; the first number of the place comes before it.
pub fn all() -> impl Iterator<Item = (u16, u16, &'static Place, &'static Wrong)> {
    let mut next = 1;
    PLACES.iter().flat_map(move |place| {
        let first = next;
        next += place.wrong.len() as u16;
        (first..)
            .zip(place.wrong)
            .map(move |(number, wrong)| (first, number, place, wrong))
    })
}

macro_rules! reason {
    () => {
        None
    };
    ($why:literal) => {
        Some($why)
    };
}

macro_rules! places {
    ($($stage:literal $file:literal {
        $($old:literal { $($words:literal => $new:literal $(same $why:literal)?;)* })*
    })*) => {
        &[$($(Place {
            stage: $stage,
            file: $file,
            old: $old,
            wrong: &[$(Wrong { words: $words, new: $new, same: reason!($($why)?) },)*],
        },)*)*]
    };
}

pub const PLACES: &[Place] = places! {
    "smooth" "tonekit-segment/src/smooth.rs" {
        "if d.is_finite() { d } else { FLOOR_DB }" {
            "not finite reads as 0" => "if d.is_finite() { d } else { 0.0 }";
            "only NaN reads as -100" => "if d.is_nan() { FLOOR_DB } else { d }";
            "infinity reads as 100" => "if d == f32::INFINITY { 100.0 } else if d.is_finite() { d } else { FLOOR_DB }";
        }
        "let half = «SMOOTH_FRAMES / 2»;" {
            "over 3 frames" => "1";
            "over 7 frames" => "3";
        }
        "&clean[«i.saturating_sub(half)..(i + half + 1).min(clean.len())»]" {
            "the last frame of the window left out" => "i.saturating_sub(half)..(i + half).min(clean.len()).max(i + 1)";
            "the first frame of the window left out" => "(i + 1).saturating_sub(half).min(i)..(i + half + 1).min(clean.len())";
            "a window of 5 at both ends too" => "i.saturating_sub(half).min(clean.len().saturating_sub(5))..(i + half + 1).max(5).min(clean.len())";
        }
        "window.iter().fold(0.0, |sum, d| sum + d) / window.len() as f32 + 0.0" {
            "always a fifth" => "window.iter().fold(0.0, |sum, d| sum + d) / SMOOTH_FRAMES as f32 + 0.0";
            "summed in f64" => "(window.iter().fold(0.0, |sum, d| sum + f64::from(*d)) / window.len() as f64) as f32 + 0.0";
            "summed from the last frame" => "window.iter().rev().fold(0.0, |sum, d| sum + d) / window.len() as f32 + 0.0";
            "times the reciprocal" => "window.iter().fold(0.0, |sum, d| sum + d) * (1.0 / window.len() as f32) + 0.0";
            "a zero keeps its sign" => "window.iter().fold(0.0, |sum, d| sum + d) / window.len() as f32";
            "each frame divided" => "window.iter().fold(0.0, |sum, d| sum + d / window.len() as f32) + 0.0";
            "summed from -0.0" => "window.iter().fold(-0.0, |sum, d| sum + d) / window.len() as f32 + 0.0"
                same "the sum differs only where every frame is -0.0, and the last addition writes that as +0.0";
        }
        "while j + 1 < «s.len()» && s[j + 1] == s[i]" {
            "a flat stretch cut at the end of the part" => "hi";
        }
        "&& «s[j + 1] == s[i]»" {
            "flat stretches not joined" => "false";
            "flat within a thousandth" => "(s[j + 1] - s[i]).abs() <= 0.001";
        }
        "let left = «i == 0 || sign * s[i - 1] < v»;" {
            "nothing before counts as higher" => "i != 0 && sign * s[i - 1] < v";
            "the start of the part counts as satisfied" => "i <= lo || sign * s[i - 1] < v";
            "an equal neighbour before is no hindrance" => "i == 0 || sign * s[i - 1] <= v"
                same "a flat stretch starts where the frame before it differs";
        }
        "let right = «j + 1 == s.len() || sign * s[j + 1] < v»;" {
            "nothing after counts as higher" => "j + 1 != s.len() && sign * s[j + 1] < v";
            "the end of the part counts as satisfied" => "j + 1 >= hi || sign * s[j + 1] < v";
        }
        "let mid = «(i + j) / 2»;" {
            "the middle rounded up" => "(i + j + 1) / 2";
            "the first of a flat stretch" => "i";
            "the last of a flat stretch" => "j";
        }
        "left && right && (lo..hi).contains(&mid)" {
            "the end of the part belongs to it" => "left && right && (lo..=hi).contains(&mid)";
            "the start of the part does not" => "left && right && (lo + 1..hi).contains(&mid)";
            "a flat stretch must start in the part" => "left && right && lo <= i && mid < hi";
            "a flat stretch must end in the part" => "left && right && lo <= mid && j < hi";
            "only the left side is asked" => "left && (lo..hi).contains(&mid)";
        }
        "Extremum::Max => «x > y»," {
            "the last of equal tops" => "x >= y";
        }
        "Extremum::Min => «x < y»," {
            "the last of equal bottoms" => "x <= y";
        }
        "for i in «a..=b» {" {
            "the last frame is not looked at" => "a..=b.saturating_sub(1).max(a)";
            "the first frame is not looked at" => "(a + 1).min(b)..=b"
                same "it is what the search starts from";
        }
        "while last < «b» && s[last + 1]" {
            "a flat stretch past the end of the part" => "s.len() - 1";
        }
        "(best + last) / 2" {
            "the middle of the best rounded up" => "(best + last + 1) / 2";
            "the first of the best" => "best";
            "the last of the best" => "last";
        }
        "s[a..=b].iter().copied().fold(f32::INFINITY, f32::min)" {
            "the valley without its ends" => "s[(a + 1).min(b)..b].iter().copied().fold(f32::INFINITY, f32::min)";
            "the valley's mean" => "s[a..=b].iter().sum::<f32>() / (b - a + 1) as f32";
        }
        "valley > s[a].min(s[b]) - dip_db" {
            "a valley of just the dip is shallow" => "valley >= s[a].min(s[b]) - dip_db";
            "below the higher peak" => "valley > s[a].max(s[b]) - dip_db";
            "below the first peak" => "valley > s[a] - dip_db";
            "the dip added to the valley" => "valley + dip_db > s[a].min(s[b])";
            "the depth rounded" => "s[a].min(s[b]) - valley < dip_db";
            "one bit above is deep enough" => "valley > (s[a].min(s[b]) - dip_db).next_up()";
        }
    }
    "region" "tonekit-segment/src/region.rs" {
        "e.db.iter().copied().filter(|d| d.is_finite()).collect()" {
            "not finite counts as -100 in the floor" => "e.db.iter().map(|&d| if d.is_finite() { d } else { -100.0 }).collect()";
            "infinities count in the floor" => "e.db.iter().copied().filter(|d| !d.is_nan()).collect()";
            "the level's floor" => "crate::smooth::smoothed_db(&e.db)";
        }
        "db.sort_by(f32::total_cmp);" {
            "not sorted" => "";
            "sorted falling" => "db.sort_by(|a, b| b.total_cmp(a));";
            "sorted by the plain order" => "db.sort_by(|a, b| a.partial_cmp(b).unwrap());"
                same "equal values are zeros, and a floor of zeros is +0.0 either way";
        }
        "FLOOR_QUANTILE * (db.len() - 1) as f64" {
            "rank of the count" => "FLOOR_QUANTILE * db.len() as f64";
            "a tenth as f32" => "f64::from(0.10_f32) * (db.len() - 1) as f64";
            "divided by ten" => "(db.len() - 1) as f64 / 10.0";
            "the fifth part" => "0.05 * (db.len() - 1) as f64";
        }
        "rank.floor() as usize" {
            "the nearest rank" => "(rank.round() as usize).min(db.len() - 1)";
            "the rank above" => "(rank.ceil() as usize).min(db.len() - 1)";
        }
        "(below + 1).min(db.len() - 1)" {
            "the rank above may be past the last" => "below + 1";
        }
        "Some(«(lo + (rank - below as f64) * (hi - lo)) as f32»)" {
            "not interpolated" => "lo as f32";
            "interpolated in f32" => "lo as f32 + (rank - below as f64) as f32 * (hi as f32 - lo as f32)";
            "weighted sum" => "((1.0 - (rank - below as f64)) * lo + (rank - below as f64) * hi) as f32";
            "the fraction from the remainder" => "(lo + ((db.len() - 1) % 10) as f64 / 10.0 * (hi - lo)) as f32";
            "halfway" => "(lo + 0.5 * (hi - lo)) as f32";
            "from the value above" => "(hi - (1.0 - (rank - below as f64)) * (hi - lo)) as f32";
        }
        "floor_db(e).map_or(«f32::INFINITY», |floor|" {
            "no floor: everything is above" => "f32::NEG_INFINITY";
        }
        "|floor| «floor + p.speech_margin_db»)" {
            "the default margin" => "floor + 10.0";
            "the dip for the margin" => "floor + p.dip_db";
            "added in f64" => "(f64::from(floor) + f64::from(p.speech_margin_db)) as f32"
                same "an f64 holds more than twice the digits of an f32, so that rounding twice is rounding once";
        }
        "let threshold = speech_threshold(e, p);«»" {
            "speech read from the level" => "return crate::smooth::smoothed_db(&e.db).into_iter().zip(&e.db).map(|(s, d)| d.is_finite() && s > threshold).collect();";
        }
        ".map(|&d| «d.is_finite() && d > threshold»)" {
            "at the threshold is speech" => "d.is_finite() && d >= threshold";
            "infinity is speech" => "d > threshold";
            "one bit above the threshold is not enough" => "d.is_finite() && d > threshold.next_up()";
            "the difference from the floor rounded" => "d.is_finite() && floor_db(e).is_some_and(|floor| d - floor > p.speech_margin_db)";
            "not finite read as -100 is asked" => "(if d.is_finite() { d } else { -100.0 }) > threshold";
        }
        "loud.len() >= MIN_SPEECH_FRAMES" {
            "6 speech frames" => "loud.len() > MIN_SPEECH_FRAMES";
            "4 speech frames" => "loud.len() + 1 >= MIN_SPEECH_FRAMES";
            "5 frames from first to last" => "last + 1 - first >= MIN_SPEECH_FRAMES";
            "5 speech frames in a row" => "loud.windows(5).any(|w| w[4] - w[0] == 4)";
        }
        "start: frame(«first»)," {
            "a frame before the first" => "first.saturating_sub(1)";
        }
        "frame(«last + 1»)" {
            "up to the last" => "last";
            "from first to the first pause" => "*loud.iter().zip(&loud[1..]).find(|(a, b)| **a + 1 != **b).map_or(&last, |(a, _)| a) + 1";
        }
    }
    "runs" "tonekit-core/src/signal.rs" {
        "frames[end] - frames[end - 1] > MAX_BRIDGED_GAP_FRAMES + 1" {
            "one frame bridged" => "frames[end] - frames[end - 1] > MAX_BRIDGED_GAP_FRAMES";
            "three frames bridged" => "frames[end] - frames[end - 1] > MAX_BRIDGED_GAP_FRAMES + 2";
            "nothing bridged" => "frames[end] - frames[end - 1] > 1";
        }
    }
    "syllable_runs" "tonekit-core/src/syllable_runs.rs" {
        ".filter(|r| «r.len() >= MIN_RUN_FRAMES»)" {
            "long from 6" => "r.len() > MIN_RUN_FRAMES";
            "long from 4" => "r.len() + 1 >= MIN_RUN_FRAMES";
            "long by first and last frame" => "frames[r.end - 1] + 1 - frames[r.start] >= MIN_RUN_FRAMES";
            "short ones too" => "true";
        }
        "if «!pitch_breaks(st, group[group.len() - 1].end - 1, run.start)» =>" {
            "from the end of the group's first run" => "!pitch_breaks(st, group[0].end - 1, run.start)";
            "from the start of the run before" => "!pitch_breaks(st, group[group.len() - 1].start, run.start)";
            "to the end of the run" => "!pitch_breaks(st, group[group.len() - 1].end - 1, run.end - 1)";
            "from the last voiced frame, of a short run too" => "!pitch_breaks(st, run.start - 1, run.start)";
            "from the first frame of the group" => "!pitch_breaks(st, group[0].start, run.start)";
            "never a break" => "true";
            "always a break" => "false";
        }
        "moved.is_nan() || exact::breaks_3st(st[a], st[b])" {
            "only a rise breaks" => "st[b] > st[a] && exact::breaks_3st(st[a], st[b])";
            "only a fall breaks" => "st[b] < st[a] && exact::breaks_3st(st[a], st[b])";
            "4 semitones" => "st[a].max(st[b]) >= 1.2599210498948732 * st[a].min(st[b])";
            "3 Hz" => "moved >= PITCH_BREAK_ST";
            "no test of NaN" => "exact::breaks_3st(st[a], st[b])"
                same "every pitch that is admitted is a number";
        }
    }
    "runs" "tonekit-segment/src/runs.rs" {
        "f.hz.is_some().then_some(i)" {
            "voiced from voiced_p 0.5" => "(f.voiced_p >= 0.5).then_some(i)";
        }
        ".filter(|r| «r.len() >= MIN_RUN_FRAMES»)" {
            "a long run from 6" => "r.len() > MIN_RUN_FRAMES";
            "a long run from 4" => "r.len() + 1 >= MIN_RUN_FRAMES";
            "a long run by first and last frame" => "voiced[r.end - 1] + 1 - voiced[r.start] >= MIN_RUN_FRAMES";
        }
        "last: «parts[parts.len() - 1].last»," {
            "to the end of its first part" => "parts[0].last";
        }
        "first: «parts[0].first»," {
            "from the start of its last part" => "parts[parts.len() - 1].first";
        }
        "before: «w[0].last»," {
            "a dropout from one frame later" => "w[0].last + 1";
        }
        "after: «w[1].first»," {
            "a dropout up to one frame earlier" => "w[1].first - 1";
        }
        "(k, «r.first.saturating_sub(at).max(at.saturating_sub(r.last))»)" {
            "near a run only before it" => "if at > r.last { usize::MAX } else { r.first.saturating_sub(at) }";
            "near a run only after it" => "if at < r.first { usize::MAX } else { at.saturating_sub(r.last) }";
            "distance to the run's middle" => "at.abs_diff((r.first + r.last) / 2).saturating_sub((r.last - r.first) / 2)";
        }
        "«distance <= radius»" {
            "within 1 frame" => "distance < radius";
            "within 3 frames" => "distance <= radius + 1";
        }
        ".min_by_key(|&(k, distance)| «(distance, k)»)" {
            "the later on a tie" => "(distance, usize::MAX - k)";
            "the earliest within reach" => "(0, k)";
            "the latest within reach" => "(0, usize::MAX - k)";
        }
        "«(run_of(runs, a, radius), run_of(runs, b, radius))»," {
            "a peak in no run has one of its own" => "(run_of(runs, a, radius).or(Some(usize::MAX)), run_of(runs, b, radius).or(Some(usize::MAX - 1)))";
            "only a peak inside its run" => "(run_of(runs, a, 0), run_of(runs, b, 0))";
            "within 3 frames of the run" => "(run_of(runs, a, radius + 1), run_of(runs, b, radius + 1))";
        }
    }
    "repair" "tonekit-f0/src/repair.rs" {
        "for run in «voiced_runs(&frames)» {" {
            "neighbours of all runs" => "vec![std::ops::Range { start: 0, end: frames.len() }]";
        }
        "run.len() < MIN_RUN_FRAMES" {
            "runs of 5 left alone" => "run.len() <= MIN_RUN_FRAMES";
            "runs of 4 repaired" => "run.len() + 1 < MIN_RUN_FRAMES";
            "5 frames from first to last" => "run[run.len() - 1].0 + 1 - run[0].0 < MIN_RUN_FRAMES || run.len() == 1";
        }
        "around.extend(\n            run[pos.saturating_sub(NEIGHBOURS)..pos]\n                .iter()\n                .map(|&(_, s)| s),\n        );" {
            "a repaired neighbour votes" => "around.extend(run[pos.saturating_sub(NEIGHBOURS)..pos].iter().map(|&(f, s)| track.frames[f].hz.unwrap_or(s)));";
            "4 neighbours before" => "around.extend(run[pos.saturating_sub(NEIGHBOURS - 1)..pos].iter().map(|&(_, s)| s));";
            "6 neighbours before" => "around.extend(run[pos.saturating_sub(NEIGHBOURS + 1)..pos].iter().map(|&(_, s)| s));";
            "none before" => "";
            "5 frames before, voiced or not" => "around.extend(run[..pos].iter().filter(|x| x.0 + NEIGHBOURS >= frame).map(|&(_, s)| s));\nif around.is_empty() && pos + 1 == run.len() { around.push(st); }";
        }
        "around.extend(\n            run[pos + 1..(pos + 1 + NEIGHBOURS).min(run.len())]\n                .iter()\n                .map(|&(_, s)| s),\n        );" {
            "4 neighbours after" => "around.extend(run[pos + 1..(pos + NEIGHBOURS).min(run.len())].iter().map(|&(_, s)| s));\nif around.is_empty() { around.push(st); }";
            "6 neighbours after" => "around.extend(run[pos + 1..(pos + 2 + NEIGHBOURS).min(run.len())].iter().map(|&(_, s)| s));";
            "the frame itself votes" => "around.extend(run[pos..(pos + 1 + NEIGHBOURS).min(run.len())].iter().map(|&(_, s)| s));";
            "none after" => "if around.is_empty() { around.push(st); }";
        }
        "deviation.abs() > MAX_DEVIATION_ST" {
            "nothing is doubled" => "deviation > MAX_DEVIATION_ST";
            "nothing is halved" => "-deviation > MAX_DEVIATION_ST";
            "nothing is repaired" => "false";
        }
        "*hz *= «if deviation > 0.0 { 0.5 } else { 2.0 }»;" {
            "a third off" => "if deviation > 0.0 { 1.0 / 3.0 } else { 3.0 }";
            "the neighbours' value" => "around[around.len() / 2] / *hz";
        }
        "values.sort_by(f32::total_cmp);" {
            "the middle of the unsorted" => "";
        }
        "(values[mid - 1], values[mid])" {
            "the upper of the middle pair" => "(values[mid], values[mid])";
            "the lower of the middle pair" => "(values[mid - 1], values[mid - 1])";
            "the middle pair averaged in Hz" => "let mean = 0.5 * (values[mid - 1] + values[mid]); (mean, mean)";
        }
        "  «(values[mid], values[mid])»\n" {
            "one below the middle" => "(values[mid.saturating_sub(1)], values[mid.saturating_sub(1)])";
        }
    }
    "nsdf" "tonekit-f0/src/nsdf.rs" {
        "let start = «centre.saturating_sub(WINDOW / 2)»;" {
            "a sample more before" => "centre.saturating_sub(WINDOW / 2 + 1)";
            "a sample fewer before" => "centre.saturating_sub(WINDOW / 2 - 1)";
            "from the centre on" => "centre";
            "a window that stays whole at the start of the take" => "centre.saturating_sub(WINDOW / 2).min(pcm.len().saturating_sub(WINDOW))";
        }
        "let end = «(centre + WINDOW / 2).min(pcm.len())»;" {
            "a sample more after" => "(centre + WINDOW / 2 + 1).min(pcm.len())";
            "a sample fewer after" => "(centre + WINDOW / 2 - 1).min(pcm.len())";
            "512 samples from the start on" => "(start + WINDOW).min(pcm.len())";
            "up to the centre" => "centre.min(pcm.len())";
        }
        "if «end < start + lag + 1» {" {
            "one pair is too few" => "end < start + lag + 2";
            "a window of the lag goes on" => "end < start + lag"
                same "there is no pair then, so no energy, and that answers 0 as well";
        }
        "for j in start..end - lag {\n        let (a, b) = (x(j), x(j + lag));\n        cross += a * b;\n        power += a * a + b * b;\n    }" {
            "the last pair left out" => "for j in start..end - lag - 1 { let (a, b) = (x(j), x(j + lag)); cross += a * b; power += a * a + b * b; }";
            "the first pair left out" => "for j in start + 1..end - lag { let (a, b) = (x(j), x(j + lag)); cross += a * b; power += a * a + b * b; }";
            "half the window's pairs" => "for j in start..(end - lag).min(start + WINDOW / 2) { let (a, b) = (x(j), x(j + lag)); cross += a * b; power += a * a + b * b; }";
            "only the first of each pair" => "for j in start..end - lag { let (a, b) = (x(j), x(j + lag)); cross += a * b; power += 2.0 * a * a; }";
            "the larger of each pair" => "for j in start..end - lag { let (a, b) = (x(j), x(j + lag)); cross += a * b; power += 2.0 * (a * a).max(b * b); }";
            "only pairs of one sign" => "for j in start..end - lag { let (a, b) = (x(j), x(j + lag)); cross += (a * b).abs(); power += a * a + b * b; }";
        }
        "if power > 0.0 {\n        «2.0 * cross / power»" {
            "half of it" => "cross / power";
            "rounded to f32" => "f64::from((2.0 * cross / power) as f32)";
            "not below 0" => "(2.0 * cross / power).max(0.0)";
        }
        "} else {\n        «0.0»\n    }\n}" {
            "silence repeats" => "1.0";
        }
    }
    "recover" "tonekit-f0/src/recover.rs" {
        "«track.frames[i].hz.is_none()»" {
            "frames with a pitch are tried too" => "true";
        }
        "speech.get(i).copied().unwrap_or(«false»)" {
            "past the speech marks is speech" => "true";
        }
        "&& «vowel.get(i).copied()».unwrap_or(false)" {
            "no vowel mark is asked" => "Some(true)";
            "the speech mark asked twice" => "speech.get(i).copied()";
        }
        "&& «speech.get(i).copied()»" {
            "no speech mark is asked" => "Some(true)";
            "the marks of the frame before" => "speech.get(i.wrapping_sub(1)).copied()";
        }
        "period_hz(pcm, «i * HOP»)" {
            "centred on the frame's middle" => "i * HOP + HOP / 2";
            "centred on the next frame" => "i * HOP + HOP";
        }
        "let reach = «MAX_BRIDGED_GAP_FRAMES + 1»;" {
            "pitches within 2 frames" => "MAX_BRIDGED_GAP_FRAMES";
            "pitches within 4 frames" => "MAX_BRIDGED_GAP_FRAMES + 2";
            "no pitch looked for" => "0";
        }
        "!(start.saturating_sub(reach)..start).any(pitched) && !(end..end + reach).any(pitched)" {
            "only pitches before" => "!(start.saturating_sub(reach)..start).any(pitched)";
            "only pitches after" => "!(end..end + reach).any(pitched)";
            "a pitch on both sides" => "!(start.saturating_sub(reach)..start).any(pitched) || !(end..end + reach).any(pitched)";
            "another stretch nearby counts" => "!(start.saturating_sub(reach)..start).any(|i| pitched(i) || estimates[i].is_some()) && !(end..end + reach).any(pitched)";
        }
        "(Some(prev), Some(Some(hz))) => «exact::within_1_5st(prev, *hz)»," {
            "a step of any size" => "prev > 0.0 && *hz > 0.0";
            "a fall of any size" => "*hz <= prev || exact::within_1_5st(prev, *hz)";
            "a rise of any size" => "*hz >= prev || exact::within_1_5st(prev, *hz)";
            "from the stretch's first" => "exact::within_1_5st(estimates[start].unwrap_or(prev), *hz)";
            "1.5 Hz" => "(hz - prev).abs() <= MAX_STEP_ST";
        }
        "i - start >= MIN_FRAMES" {
            "4 frames" => "i - start > MIN_FRAMES";
            "2 frames" => "i - start + 1 >= MIN_FRAMES";
        }
        "            «start = i;»\n" {
            "a step over the limit ends the stretch and the frame starts none" => "start = if i > 0 && estimates[i - 1].is_some() && i < estimates.len() && estimates[i].is_some() { i + 1 } else { i };";
        }
        "«(sr / RANGE_HZ.1).floor() as usize»" {
            "lags from 31" => "(sr / RANGE_HZ.1).floor() as usize - 1";
            "lags from 33" => "(sr / RANGE_HZ.1).floor() as usize + 1";
        }
        "«(sr / RANGE_HZ.0).ceil() as usize»" {
            "lags to 228" => "(sr / RANGE_HZ.0).floor() as usize";
            "lags to 230" => "(sr / RANGE_HZ.0).ceil() as usize + 1";
        }
        "d[k] > d[k - 1] && d[k] >= d[k + 1]" {
            "a flat start is a peak" => "d[k] >= d[k - 1] && d[k] >= d[k + 1]";
            "a flat end is none" => "d[k] > d[k - 1] && d[k] > d[k + 1]";
            "a flat end for a flat start" => "d[k] >= d[k - 1] && d[k] > d[k + 1]";
        }
        "best < MIN_PERIODICITY" {
            "0.6 is too little" => "best <= MIN_PERIODICITY";
            "0.6 as f32" => "best < f64::from(0.6_f32)";
            "at least 0.5" => "best < 0.5";
            "at least 0.7" => "best < 0.7";
        }
        "*peaks.iter().find(|&&(_, v)| v >= NEAR_BEST * best)?" {
            "above 0.9 times the best" => "*peaks.iter().find(|&&(_, v)| v > NEAR_BEST * best)?";
            "0.9 itself" => "*peaks.iter().find(|&&(_, v)| v >= NEAR_BEST.min(best))?";
            "the best" => "*peaks.iter().find(|&&(_, v)| v >= best)?";
            "the last near the best" => "*peaks.iter().rev().find(|&&(_, v)| v >= NEAR_BEST * best)?";
            "within 0.1 of the best" => "*peaks.iter().find(|&&(_, v)| v >= best - 0.1)?";
            "0.8 times the best" => "*peaks.iter().find(|&&(_, v)| v >= 0.8 * best)?";
            "the first good one" => "*peaks.iter().find(|&&(_, v)| v >= MIN_PERIODICITY)?";
            "divided by the best" => "*peaks.iter().find(|&&(_, v)| v / best >= NEAR_BEST)?";
        }
        "let denom = «a - 2.0 * b + c»;" {
            "from the sum of the neighbours" => "a + c - 2.0 * b";
        }
        "if denom < 0.0 {\n        «0.5 * (a - c) / denom»" {
            "not refined" => "0.0";
            "refined the other way" => "0.5 * (c - a) / denom";
            "half as far" => "0.25 * (a - c) / denom";
            "divided by twice the bend" => "(a - c) / (2.0 * denom)"
                same "a factor of two is exact on either side of the division";
        }
        "let lag = (lo - 1 + k) as f64 + «shift.clamp(-0.5, 0.5)»;" {
            "not clamped" => "shift";
            "clamped to a whole lag" => "shift.clamp(-1.0, 1.0)";
            "clamped to a quarter" => "shift.clamp(-0.25, 0.25)";
        }
        "let lag = «(lo - 1 + k) as f64» +" {
            "a lag more" => "(lo + k) as f64";
        }
        "Some(sr / lag)\n" {
            "rounded to f32 before the steps" => "Some(f64::from((sr / lag) as f32))";
            "rounded to whole Hz" => "Some((sr / lag).round())";
        }
    }
    "nuclei" "tonekit-segment/src/nuclei.rs" {
        "threshold: «floor + p.speech_margin_db»," {
            "the default margin" => "floor + 10.0";
            "the floor alone" => "floor";
        }
        "(region.end as usize).min(e.db.len())" {
            "not cut to the track" => "region.end as usize"
                same "a region past the track is refused";
        }
        "start: «region.start as usize»," {
            "from the frame after the region's start" => "region.start as usize + 1";
        }
        "= «voiced_peaks(&level, f0)»\n" {
            "the speech mark asked of a peak" => "voiced_peaks(&level, f0).into_iter().filter(|&c| crate::region::speech_frames(e, p)[c]).collect::<Vec<_>>()";
            "peaks of the dB as given" => "voiced_peaks(&Level { s: e.db.iter().map(|&d| if d.is_finite() { d } else { -100.0 }).collect(), threshold: level.threshold, start: level.start, end: level.end }, f0)";
        }
        ".map(|c| «onto_run(&level, &runs, c)»)" {
            "not moved onto the run" => "c";
            "moved onto the syllable run" => "onto_run(&level, &syllable_runs(f0), c)";
        }
        "«run_of(&runs, c, VOICING_RADIUS) == Some(k)»" {
            "a run held only from inside" => "run_of(&runs, c, 0) == Some(k)";
            "a run held by every peak within 2 frames" => "c + VOICING_RADIUS >= run.first && c <= run.last + VOICING_RADIUS";
            "a run held within 3 frames" => "run_of(&runs, c, VOICING_RADIUS + 1) == Some(k)";
        }
        "if «!held» {" {
            "every run adds its top" => "!held || held";
            "no run adds its top" => "held && !held";
        }
        "candidates.sort_unstable();" {
            "not sorted" => "";
        }
        "candidates.dedup();" {
            "a frame twice" => "";
        }
        "let syllables = «syllable_runs(f0)»;" {
            "long runs part nuclei" => "long_runs(f0)";
            "no runs part nuclei" => "Vec::new()";
        }
        "strength_db: «level.s[i] - floor»," {
            "strength above the threshold" => "level.s[i] - level.threshold";
            "strength of the dB as given" => "e.db[i] - floor";
            "the level itself" => "level.s[i]";
        }
        "(self.start..self.end).contains(&at) && self.s[at] >= self.threshold" {
            "strictly above the threshold" => "(self.start..self.end).contains(&at) && self.s[at] > self.threshold";
            "the region is not asked" => "self.s.get(at).is_some_and(|&d| d >= self.threshold)";
            "one bit below the threshold is enough" => "(self.start..self.end).contains(&at) && self.s[at] >= self.threshold.next_down()";
            "the threshold is not asked" => "(self.start..self.end).contains(&at)";
        }
        "local_extrema(&level.s, «level.start», level.end, Extremum::Max)" {
            "peaks from the track's start on" => "0"
                same "whether a peak lies in the region is asked again with the threshold";
        }
        "«(peak.saturating_sub(VOICING_RADIUS)..=peak + VOICING_RADIUS)»\n" {
            "a pitch within 1 frame" => "(peak.saturating_sub(1)..=peak + 1)";
            "a pitch within 3 frames" => "(peak.saturating_sub(3)..=peak + 3)";
            "a pitch on the peak" => "(peak..=peak)";
            "a pitch at or after the peak" => "(peak..=peak + VOICING_RADIUS)";
        }
        ".any(|i| «f0.frames.get(i).is_some_and(|f| f.hz.is_some())»)" {
            "no pitch asked" => "f0.frames.get(i).is_some()";
            "a long run asked" => "run_of(&long_runs(f0), i, 0).is_some()";
        }
        "(run.first.max(level.start), (run.last + 1).min(level.end))" {
            "a run not cut to the region" => "(run.first, run.last + 1)";
            "a run inside the region only" => "if run.first >= level.start && run.last < level.end { (run.first, run.last + 1) } else { (0, 0) }";
        }
        "let top = «argmax_middle(&level.s, lo, hi - 1)»;" {
            "the run's middle" => "(lo + hi - 1) / 2";
            "its first loudest frame" => "(lo..hi).rev().max_by(|&a, &b| level.s[a].total_cmp(&level.s[b])).unwrap_or(lo)";
            "a frame more" => "argmax_middle(&level.s, lo, hi.min(level.s.len() - 1))";
        }
        "&level.s[«top.saturating_sub(VOICING_RADIUS)..(top + VOICING_RADIUS + 1).min(level.s.len())»]" {
            "louder frames in the region only" => "top.saturating_sub(VOICING_RADIUS).max(level.start)..(top + VOICING_RADIUS + 1).min(level.end)";
            "louder frames within 1" => "top.saturating_sub(1)..(top + 2).min(level.s.len())";
            "louder frames after only" => "top..(top + VOICING_RADIUS + 1).min(level.s.len())";
            "louder frames before only" => "top.saturating_sub(VOICING_RADIUS)..top + 1";
        }
        "d > level.s[top] + dip_db" {
            "louder by just the dip" => "d >= level.s[top] + dip_db";
            "louder by anything" => "d > level.s[top]";
            "the difference rounded" => "d - level.s[top] > dip_db";
            "the dip taken from the louder" => "d - dip_db > level.s[top]";
        }
        "(«level.speech(top) && !flank»)" {
            "a louder neighbour is no hindrance" => "level.speech(top)";
            "a quiet top too" => "!flank";
        }
        "match «run_of(runs, at, VOICING_RADIUS)» {" {
            "moved from within 1 frame" => "run_of(runs, at, 1)";
            "moved to the nearest at any distance" => "run_of(runs, at, usize::MAX)";
        }
        ".filter(|&on| «level.speech(on)»)" {
            "moved wherever the run is" => "on < level.s.len()";
            "moved inside the region" => "(level.start..level.end).contains(&on)";
            "moved to speech outside the region" => "level.s[on] >= level.threshold";
        }
        "let close = «peak - prev < p.min_nucleus_gap as usize»;" {
            "as near as the gap is close" => "peak - prev <= p.min_nucleus_gap as usize";
            "the default gap" => "peak - prev < 6";
            "never close" => "peak < prev";
        }
        "«shallow_valley(s, prev, peak, p.dip_db)»\n" {
            "the default dip" => "shallow_valley(s, prev, peak, 3.0)";
            "a valley before the peak only" => "shallow_valley(s, prev, peak - 1, p.dip_db)";
        }
        "&& «!in_separate_runs(runs, prev, peak, VOICING_RADIUS)»;" {
            "runs do not part" => "true";
        }
        "if «!(close || same_syllable)» {" {
            "separate runs part the close ones too" => "!(close && !in_separate_runs(runs, prev, peak, VOICING_RADIUS) || same_syllable)";
            "close and shallow" => "!(close && same_syllable)";
            "only the close ones" => "!close";
        }
        "if «s[peak] <= s[prev]» {" {
            "the later of equal peaks" => "s[peak] < s[prev]";
            "always the earlier" => "s[prev] < f32::INFINITY";
            "always the later" => "s[prev] == f32::INFINITY";
        }
        "peak = prev;\n        }«»\n    }" {
            "one merge and no second" => "break;";
        }
    }
    "unpitched" "tonekit-segment/src/unpitched.rs" {
        "«at.saturating_sub(VOICING_RADIUS)..(at + VOICING_RADIUS + 1).min(s.len())»" {
            "within 1 frame" => "at.saturating_sub(1)..(at + 2).min(s.len())";
            "within 3 frames" => "at.saturating_sub(3)..(at + 4).min(s.len())";
            "inside the region" => "at.saturating_sub(VOICING_RADIUS).max(start)..(at + VOICING_RADIUS + 1).min(end)";
        }
        "local_extrema(s, «start», end, Extremum::Max)" {
            "peaks from the track's start on" => "0"
                same "whether a peak lies in the region is asked again with the threshold";
        }
        "let pitched = «around.clone().any(|i| f0.frames[i].hz.is_some())»;" {
            "no pitch on the peak itself" => "f0.frames[peak].hz.is_some()";
            "no long run nearby" => "crate::runs::run_of(&crate::runs::long_runs(f0), peak, VOICING_RADIUS).is_some()";
            "a pitch is no hindrance" => "false";
        }
        "let mean = «sonority[around.clone()].iter().sum::<f32>() / around.len() as f32»;" {
            "the peak's sonority" => "sonority[peak]";
            "always a fifth of the sum" => "sonority[around.clone()].iter().sum::<f32>() / 5.0";
            "the mean in f64" => "(sonority[around.clone()].iter().map(|&x| f64::from(x)).sum::<f64>() / around.len() as f64) as f32";
            "the least sonority" => "sonority[around.clone()].iter().copied().fold(1.0, f32::min)";
            "the largest sonority" => "sonority[around.clone()].iter().copied().fold(0.0, f32::max)";
        }
        "«speech_at(peak)» && !pitched" {
            "no threshold" => "peak >= start";
        }
        "&& !pitched && «mean >= SONORANT_SHARE»" {
            "over a half" => "mean > SONORANT_SHARE";
            "from 0.6" => "mean >= 0.6";
            "of any sonority" => "mean >= 0.0";
            "one bit below a half" => "mean >= SONORANT_SHARE.next_down()";
        }
    }
    "split" "tonekit-segment/src/split.rs" {
        "let lo = «a + MIN_PART.max(SPLIT_REACH)»;" {
            "5 frames before" => "a + MIN_PART - 1";
            "7 frames before" => "a + MIN_PART + 1";
        }
        "«(b + 1).checked_sub(MIN_PART.max(SPLIT_REACH))?»" {
            "7 frames after" => "b.checked_sub(MIN_PART)?";
            "5 frames after" => "(b + 2).checked_sub(MIN_PART)?";
        }
        "k.abs_diff(nucleus) >= SPLIT_FROM_NUCLEUS" {
            "4 frames from the nucleus" => "k.abs_diff(nucleus) > SPLIT_FROM_NUCLEUS";
            "2 frames from the nucleus" => "k.abs_diff(nucleus) + 1 >= SPLIT_FROM_NUCLEUS";
            "only after the nucleus" => "k >= nucleus + SPLIT_FROM_NUCLEUS";
            "only before the nucleus" => "k + SPLIT_FROM_NUCLEUS <= nucleus";
            "3 frames between split and nucleus, as the second part has it" => "if k > nucleus { k - nucleus >= SPLIT_FROM_NUCLEUS } else { nucleus - k > SPLIT_FROM_NUCLEUS }";
        }
        "«(mean(k, k + SPLIT_REACH) - mean(k - SPLIT_REACH, k)).abs()»" {
            "only a rise" => "mean(k, k + SPLIT_REACH) - mean(k - SPLIT_REACH, k)";
            "only a fall" => "mean(k - SPLIT_REACH, k) - mean(k, k + SPLIT_REACH)";
            "one frame on each side" => "(sonority[k] - sonority[k - 1]).abs()";
            "three frames on each side" => "(mean(k, k + 3) - mean(k - 3, k)).abs()";
            "the frames after the split" => "(mean(k + 1, k + 1 + SPLIT_REACH) - mean(k - SPLIT_REACH, k)).abs()";
            "means in f64" => "((f64::from(sonority[k]) + f64::from(sonority[k + 1]) - f64::from(sonority[k - 1]) - f64::from(sonority[k - 2])) / 2.0).abs() as f32";
        }
        "change >= SPLIT_CHANGE" {
            "over 0.2" => "change > SPLIT_CHANGE";
            "from 0.25" => "change >= 0.25";
            "from 0.1" => "change >= 0.1";
            "one bit below 0.2" => "change >= SPLIT_CHANGE.next_down()";
            "0.2 as f64" => "f64::from(change) >= 0.2"
                same "no f32 lies between 0.2 and the f32 nearest to it, which is above it";
        }
        "x.1.total_cmp(&y.1).then(x.0.cmp(&y.0))" {
            "the earlier on a tie" => "x.1.total_cmp(&y.1).then(y.0.cmp(&x.0))";
            "the latest change" => "x.0.cmp(&y.0)";
            "the earliest change" => "y.0.cmp(&x.0)";
            "the nearest to the nucleus on a tie" => "x.1.total_cmp(&y.1).then(y.0.abs_diff(nucleus).cmp(&x.0.abs_diff(nucleus)))";
        }
    }
    "extra" "tonekit-segment/src/extra.rs" {
        "if «sonority.len() != n || f0.frames.len() != n» {" {
            "a longer sonority is taken" => "sonority.len() < n || f0.frames.len() != n";
        }
        "let threshold = «floor + p.speech_margin_db»;" {
            "the default margin" => "floor + 10.0";
        }
        "|i: usize| «(start..end).contains(&i) && s[i] >= threshold»;" {
            "strictly above the threshold" => "(start..end).contains(&i) && s[i] > threshold";
            "the speech mark" => "(start..end).contains(&i) && crate::region::speech_frames(e, p)[i]";
            "one bit below the threshold is enough" => "(start..end).contains(&i) && s[i] >= threshold.next_down()";
            "the difference from the floor rounded" => "(start..end).contains(&i) && s[i] - floor >= p.speech_margin_db";
        }
        "(region.end as usize).min(n)" {
            "not cut to the track" => "region.end as usize"
                same "a region past the track is refused";
        }
        "anchors.sort_unstable();" {
            "a nucleus keeps its mark" => "anchors.sort_unstable_by_key(|x| (x.0, !x.1));";
            "nuclei first" => "anchors.sort_by_key(|x| (!x.1, x.0)); if anchors.windows(2).any(|w| w[0].0 > w[1].0) { return ExtraCandidates::default(); }";
        }
        "anchors.dedup_by_key(|x| x.0);" {
            "both on one frame" => "";
            "the nucleus kept on one frame" => "anchors.reverse(); anchors.dedup_by_key(|x| x.0); anchors.reverse();";
        }
        "let kept = «merged(anchors, &s, p)»;" {
            "not merged" => "anchors";
        }
        "let strength = |at: usize| «s[at] - floor»;" {
            "strength above the threshold" => "s[at] - threshold";
            "strength of the dB as given" => "e.db[at] - floor";
            "strength not below 0" => "(s[at] - floor).max(0.0)";
        }
        "if «k > 0» {" {
            "an edge only from a nucleus before" => "k > 0 && kept[k - 1].1"
                same "between two candidates the earlier one adds the same edge";
            "no edge before" => "k > kept.len()";
        }
        "frame(«argmin_middle(&s, kept[k - 1].0, at)»)" {
            "halfway from the one before" => "(kept[k - 1].0 + at) / 2";
            "an edge in the dB as given" => "argmin_middle(&e.db, kept[k - 1].0, at)";
        }
        "if let Some(&(next, _)) = «kept.get(k + 1)» {" {
            "an edge only to a nucleus after" => "kept.get(k + 1).filter(|x| x.1)"
                same "between two candidates the later one adds the same edge";
            "no edge after" => "kept.get(kept.len())";
        }
        "frame(«argmin_middle(&s, at, next)»)" {
            "halfway to the next" => "(at + next) / 2";
        }
        "«kept.iter().map(|&(f, _)| f).collect()»" {
            "runs held by nuclei alone" => "kept.iter().filter(|x| x.1).map(|&(f, _)| f).collect()"
                same "an unpitched peak has no pitch within 2 frames, so it is within 2 of no run";
            "runs held by the nuclei as given" => "nuclei.iter().map(|x| x.frame as usize).collect()"
                same "every marked nucleus outlives the merge, and one that lost its mark is within 2 of no run";
        }
        "for run in «long_runs(f0)» {" {
            "syllable runs split" => "crate::runs::syllable_runs(f0)";
        }
        "|&f| «f + VOICING_RADIUS >= run.first && f <= run.last + VOICING_RADIUS»" {
            "a nucleus inside the run" => "f >= run.first && f <= run.last";
            "a nucleus within 1 frame" => "f + 1 >= run.first && f <= run.last + 1";
            "a nucleus within 3 frames" => "f + 3 >= run.first && f <= run.last + 3";
            "a nucleus whose nearest run it is" => "crate::runs::run_of(&long_runs(f0), f, VOICING_RADIUS).map(|k| long_runs(f0)[k]) == Some(run)";
            "a nucleus before it too" => "f <= run.last + VOICING_RADIUS";
        }
        "let [nucleus] = «inside.as_slice()» else" {
            "the first of several" => "&inside[..inside.len().min(1)]";
            "the last of several" => "&inside[inside.len().saturating_sub(1)..]";
        }
        "if let Some(k) = «split(sonority, run.first, run.last, *nucleus)» {" {
            "a split inside the region" => "split(sonority, run.first, run.last, *nucleus).filter(|k| (start..end).contains(k))";
            "the run cut to the region" => "split(sonority, run.first.max(start), run.last.min(end.max(1) - 1), *nucleus)";
        }
        "let (lo, hi) = if «*nucleus < k» {" {
            "the nucleus's own part" => "*nucleus > k";
            "the second part" => "*nucleus < usize::MAX";
            "on the split" => "*nucleus <= k"
                same "the split is 3 frames from the nucleus";
        }
        "«(k, run.last)»" {
            "after the split" => "(k + 1, run.last)";
            "to the frame after the run" => "(k, run.last + 1)";
        }
        "«(run.first, k - 1)»" {
            "up to the split" => "(run.first, k)";
        }
        "let middle = «(lo + hi) / 2»;" {
            "the middle rounded up" => "(lo + hi + 1) / 2";
            "the loudest of the part" => "crate::smooth::argmax_middle(&s, lo, hi)";
            "the part's start" => "lo";
        }
        "out.boundaries.push(frame(«k»));" {
            "the frame before the split" => "k - 1";
        }
        "out.nuclei.sort_by_key(|x| x.frame);" {
            "splits last" => "";
        }
        "out.boundaries.sort_unstable();" {
            "edges as found" => "";
        }
        "out.boundaries.dedup();" {
            "an edge twice" => "";
            "edges within 2 frames once" => "out.boundaries.dedup_by(|b, a| *b - *a <= 2);";
        }
        "let close = «current.0 - prev.0 < p.min_nucleus_gap as usize»;" {
            "as near as the gap is close" => "current.0 - prev.0 <= p.min_nucleus_gap as usize";
            "the default gap" => "current.0 - prev.0 < 6";
        }
        "if «!(close || shallow_valley(s, prev.0, current.0, p.dip_db))» {" {
            "only close ones merge" => "!close";
            "only shallow ones merge" => "!shallow_valley(s, prev.0, current.0, p.dip_db)";
            "close and shallow" => "!(close && shallow_valley(s, prev.0, current.0, p.dip_db))";
            "the default dip" => "!(close || shallow_valley(s, prev.0, current.0, 3.0))";
        }
        "if «prev.1 && current.1» {" {
            "two nuclei merge" => "prev.1 && !prev.1";
            "close nuclei merge" => "prev.1 && current.1 && !close";
        }
        "(false, true) => «true»," {
            "the louder, a nucleus or not" => "s[current.0] > s[prev.0]";
        }
        "(true, false) => «false»," {
            "the louder later one, a nucleus or not" => "s[current.0] > s[prev.0]";
        }
        "_ => «s[current.0] > s[prev.0]»," {
            "the later of equal peaks" => "s[current.0] >= s[prev.0]";
            "always the later" => "current.0 > prev.0";
            "always the earlier" => "current.0 < prev.0";
        }
        "current = prev;\n            }«»\n        }" {
            "one merge and no second" => "break;";
        }
    }
    "boundaries" "tonekit-segment/src/boundaries.rs" {
        "let cap = «4 * nuclei.len() + 2»;" {
            "four for each nucleus" => "(4 * nuclei.len()).max(2)";
            "one more" => "4 * nuclei.len() + 3";
            "three for each nucleus" => "3 * nuclei.len() + 2";
            "as many as there are" => "usize::MAX";
            "nuclei of the region count" => "4 * nuclei.iter().filter(|x| (start..end).contains(&(x.frame as usize))).count() + 2";
        }
        "if «end != start» {" {
            "an empty region's end too" => "end >= start";
            "no end" => "end < start";
        }
        "|at: usize| «start < at && at < end»;" {
            "the region's ends belong to it" => "start <= at && at <= end"
                same "a joint on an end is within two frames of it and dropped";
            "joints anywhere" => "at < usize::MAX";
            "the region's last frame is outside" => "start < at && at + 1 < end"
                same "a joint there is within two frames of the end and dropped";
        }
        "let runs = «syllable_runs(f0)»;" {
            "long runs break" => "crate::runs::long_runs(f0)";
        }
        "«run_of(&runs, a, VOICING_RADIUS)»," {
            "the first nucleus inside its run" => "run_of(&runs, a, 0)";
            "the first nucleus within 3 frames of its run" => "run_of(&runs, a, VOICING_RADIUS + 1)";
        }
        "«run_of(&runs, b, VOICING_RADIUS)»," {
            "the second nucleus inside its run" => "run_of(&runs, b, 0)";
        }
        "if «x != y && shallow_valley(&s, a, b, p.dip_db)» =>" {
            "break edges in a deep valley too" => "x != y";
            "never break edges" => "x != y && x == y";
            "break edges in a deep valley only" => "x != y && !shallow_valley(&s, a, b, p.dip_db)";
            "only between neighbouring runs" => "x + 1 == y && shallow_valley(&s, a, b, p.dip_db)";
            "the default dip" => "x != y && shallow_valley(&s, a, b, 3.0)";
        }
        "vec![runs[x].last + 1, runs[y].first]" {
            "the last frame before the break" => "vec![runs[x].last, runs[y].first]";
            "the last frame of the break" => "vec![runs[x].last + 1, runs[y].first - 1]";
            "only the break's start" => "vec![runs[x].last + 1]";
            "only the break's end" => "vec![runs[y].first]";
            "the minimum as well" => "vec![runs[x].last + 1, runs[y].first, argmin_middle(&s, a, b)]";
            "the break's end first" => "vec![runs[y].first, runs[x].last + 1]"
                same "the two edges are three frames apart or more, and joints never fill the list";
        }
        "_ => vec![«argmin_middle(&s, a, b)»]," {
            "the minimum of the dB as given" => "argmin_middle(&e.db, a, b)";
            "halfway between the nuclei" => "(a + b) / 2";
        }
        "«»for at in edges.into_iter().filter(|&at| inside(at)) {" {
            "both edges inside or neither" => "if !edges.iter().all(|&at| inside(at)) { continue; }";
        }
        "let speech = «speech_frames(e, p)»;" {
            "pauses of the level" => "let threshold = crate::region::speech_threshold(e, p); s.iter().map(|&d| d > threshold).collect::<Vec<bool>>()";
            "pauses by the default margin" => "speech_frames(e, &SegmentParams { speech_margin_db: 10.0, ..*p })";
        }
        "= «(start.saturating_add(1)..end.min(e.db.len()))»\n" {
            "a pause edge at the region's end" => "(start.saturating_add(1)..(end + 1).min(e.db.len()))"
                same "its loud frame is within two frames of the end and dropped";
            "pauses of the whole track" => "(1..e.db.len())";
        }
        "let jump = «(db(i).unwrap_or(0.0) - db(i - 1).unwrap_or(0.0)).abs()»;" {
            "not finite reads as -100 in a jump" => "(db(i).unwrap_or(-100.0) - db(i - 1).unwrap_or(-100.0)).abs()";
            "jumps of the level" => "(s[i] - s[i - 1]).abs()";
            "rises first" => "db(i).unwrap_or(0.0) - db(i - 1).unwrap_or(0.0)";
            "all jumps alike" => "0.0";
        }
        "(«if loud(i) { i } else { i - 1 }», jump)" {
            "the frame after the crossing" => "i";
            "the quiet frame" => "if loud(i) { i - 1 } else { i }";
            "the frame before the crossing" => "i - 1";
        }
        "edges.sort_by(|a, b| «b.1.total_cmp(&a.1).then(a.0.cmp(&b.0))»);" {
            "pause edges in order" => "a.0.cmp(&b.0)";
            "the gentlest pause edge first" => "a.1.total_cmp(&b.1).then(a.0.cmp(&b.0))";
            "the later of equal pause edges first" => "b.1.total_cmp(&a.1).then(b.0.cmp(&a.0))";
        }
        "«»for (at, _) in edges {" {
            "voicing edges before pauses" => "let voiced = |i: usize| f0.frames[i].hz.is_some(); for i in start + 1..end.min(f0.frames.len()) { if voiced(i - 1) != voiced(i) { try_add(&mut kept, i, cap); } }";
            "no pause edges" => "edges.clear();";
        }
        ".filter(|d| «(d.before + 1..d.after).all(loud)»)" {
            "a creak in silence too" => "d.before < d.after";
            "a creak with some speech" => "(d.before + 1..d.after).any(loud)";
            "a creak whose ends are speech too" => "(d.before..=d.after).all(loud)";
            "no creaks" => "d.before > d.after";
        }
        "|d| «d.before < at && at <= d.after»);" {
            "the first voiced frame after a creak is out of it" => "d.before < at && at < d.after";
            "the last voiced frame before a creak is in it" => "d.before <= at && at <= d.after";
            "the first frame of a creak is out of it" => "d.before + 1 < at && at <= d.after";
        }
        "= «(start.saturating_add(1)..end.min(f0.frames.len()))»\n" {
            "a voicing edge at the region's end" => "(start.saturating_add(1)..(end + 1).min(f0.frames.len()))"
                same "it is the end itself";
            "voicing edges of the whole track" => "(1..f0.frames.len())";
        }
        "|&i| «pitched(i - 1) != pitched(i) && !in_creak(i)»)" {
            "voicing edges in creaks" => "pitched(i - 1) != pitched(i)";
            "voicing by voiced_p" => "(voiced_p(i - 1) >= 0.5) != (voiced_p(i) >= 0.5) && !in_creak(i)";
            "only onsets" => "!pitched(i - 1) && pitched(i) && !in_creak(i)";
            "only ends" => "pitched(i - 1) && !pitched(i) && !in_creak(i)";
        }
        ".map(|i| «(i, (voiced_p(i) - voiced_p(i - 1)).abs())»)" {
            "the last voiced frame" => "(if pitched(i) { i } else { i - 1 }, (voiced_p(i) - voiced_p(i - 1)).abs())";
            "rising voiced_p first" => "(i, voiced_p(i) - voiced_p(i - 1))";
            "by voiced_p itself" => "(i, voiced_p(i))";
            "voiced_p not asked" => "(i, 0.0)";
            "voiced_p of the frame after" => "(i, (voiced_p(i + 1) - voiced_p(i)).abs())";
        }
        "(i, «if jump.is_finite() { jump } else { 0.0 }»)" {
            "a jump is not tested" => "jump"
                same "voiced_p lies between 0 and 1";
        }
        "crossings.sort_by(|a, b| «b.1.total_cmp(&a.1).then(a.0.cmp(&b.0))»);" {
            "voicing edges in order" => "a.0.cmp(&b.0)";
            "the smallest voicing edge first" => "a.1.total_cmp(&b.1).then(a.0.cmp(&b.0))";
            "the later of equal voicing edges first" => "b.1.total_cmp(&a.1).then(b.0.cmp(&a.0))";
        }
        "for (at, _) in «crossings» {" {
            "no voicing edges" => "Vec::<(usize, f32)>::new()";
        }
        ".filter(|w| «w[1] - w[0] > LONG_SPAN_FRAMES»)" {
            "long from 35" => "w[1] - w[0] >= LONG_SPAN_FRAMES";
            "long from 37" => "w[1] - w[0] > LONG_SPAN_FRAMES + 1";
            "every span" => "w[1] > w[0]";
        }
        "local_extrema(&s, «w[0] + 1», w[1], Extremum::Min)" {
            "minima 10 frames inside the span" => "w[0] + 10";
        }
        ".filter(|&i| «!in_creak(i)»)\n        .map(|i| (i, prominence" {
            "minima in creaks" => "i < s.len()";
        }
        ".map(|i| (i, «prominence(&s, i)»))" {
            "the lowest first" => "-s[i]";
            "all minima alike" => "0.0";
        }
        "minima.sort_by(|a, b| «b.1.total_cmp(&a.1).then(a.0.cmp(&b.0))»);" {
            "minima in order" => "a.0.cmp(&b.0)";
            "the shallowest minimum first" => "a.1.total_cmp(&b.1).then(a.0.cmp(&b.0))";
            "the later of equal minima first" => "b.1.total_cmp(&a.1).then(b.0.cmp(&a.0))";
        }
        "for (at, _) in «minima» {" {
            "no interior minima" => "Vec::<(usize, f32)>::new()";
        }
        "if «kept.len() < cap» &&" {
            "one past the cap" => "kept.len() <= cap";
        }
        "kept.iter().all(|&k| «k.abs_diff(at) > DEDUP_FRAMES»)" {
            "two frames apart is enough" => "k.abs_diff(at) >= DEDUP_FRAMES";
            "four frames apart" => "k.abs_diff(at) > DEDUP_FRAMES + 1";
            "dropped after a boundary only" => "k > at || at - k > DEDUP_FRAMES";
        }
        "while left > 0 && «s[left - 1] >= s[left]» {" {
            "the left hill ends on a flat" => "s[left - 1] > s[left]";
            "no left hill" => "s[left - 1] == f32::INFINITY";
        }
        "while right + 1 < s.len() && «s[right + 1] >= s[right]» {" {
            "the right hill ends on a flat" => "s[right + 1] > s[right]";
            "no right hill" => "s[right + 1] == f32::INFINITY";
        }
        "s[left].min(s[right]) - s[i]" {
            "below the higher hill" => "s[left].max(s[right]) - s[i]";
            "below the left hill" => "s[left] - s[i]";
            "below the right hill" => "s[right] - s[i]";
        }
        "«kept.sort_unstable();»\n    kept.into_iter()" {
            "in the order found" => "";
        }
        "«»kept.sort_unstable();\n    let mut minima" {
            "minima where the cap leaves room for two" => "if kept.len() + 2 > cap { kept.sort_unstable(); return kept.into_iter().map(frame).collect(); }";
        }
    }
    "exact" "exact/src/powers.rs" {
        "fourth(pitch_units(p)) >= 2 * fourth(pitch_units(q))" {
            "more than 3 semitones" => "fourth(pitch_units(p)) > 2 * fourth(pitch_units(q))"
                same "the fourth root of 2 is no fraction";
            "a ratio of 1.1892" => "p >= 1.1892 * q";
            "the ratio to 7 digits" => "p >= 1.189207 * q";
            "cubes" => "pitch_units(p).pow(3) >= 2 * pitch_units(q).pow(3)";
            "in f32" => "p as f32 >= q as f32 * 1.189_207_1";
        }
        "compare(&p, &doubled(q)).is_le()" {
            "less than 1.5 semitones" => "compare(&p, &doubled(q)).is_lt()"
                same "the eighth root of 2 is no fraction";
        }
        "let (p, q) = «(eighth(estimate_units(p)), eighth(estimate_units(q)))»;" {
            "the lower 5 bits lost" => "(eighth(estimate_units(p) >> 5 << 5), eighth(estimate_units(q) >> 5 << 5))";
            "rounded to f32" => "(eighth(estimate_units(f64::from(p as f32))), eighth(estimate_units(f64::from(q as f32))))";
        }
        "«own > 8 * middle»" {
            "at 9 semitones too" => "own >= 8 * middle"
                same "the root of 8 is no fraction";
            "from 8.4 semitones" => "own > 7 * middle";
            "an octave" => "own > 16 * middle";
        }
        "} else if «8 * own < middle» {" {
            "doubled from 8.4 semitones" => "7 * own < middle";
            "doubled from an octave" => "16 * own < middle";
        }
        "let (own, middle) = (square(f) * square(f), «square(a) * square(b)»);" {
            "the mean of the middle pair" => "((pitch_units(a.into()) + pitch_units(b.into())) / 2).pow(4)";
            "the lower of the pair" => "square(a) * square(a)";
            "the higher of the pair" => "square(b) * square(b)";
        }
        "if «x >= y» {" {
            "not put in order" => "x.is_finite()";
        }
    }
    "refusals" "judge/src/entry.rs" {
        "let first = «tests.iter().position(|fails| fails(self))»;" {
            "the highest number" => "tests.iter().rposition(|fails| fails(self))";
            "2 before 1" => "planted::swapped(1).into_iter().find(|&k| tests[k](self))";
            "3 before 2" => "planted::swapped(2).into_iter().find(|&k| tests[k](self))";
            "4 before 3" => "planted::swapped(3).into_iter().find(|&k| tests[k](self))";
            "5 before 4" => "planted::swapped(4).into_iter().find(|&k| tests[k](self))";
            "6 before 5" => "planted::swapped(5).into_iter().find(|&k| tests[k](self))";
            "7 before 6" => "planted::swapped(6).into_iter().find(|&k| tests[k](self))";
            "8 before 7" => "planted::swapped(7).into_iter().find(|&k| tests[k](self))";
            "9 before 8" => "planted::swapped(8).into_iter().find(|&k| tests[k](self))"
                same "no entry is given both nuclei and samples";
            "10 before 9" => "planted::swapped(9).into_iter().find(|&k| tests[k](self))";
        }
        "«self.db.or(pitch)».map_or" {
            "the pitches' count before that of dB" => "pitch.or(self.db)"
                same "where the two differ the call is refused with 2 before the count is read again";
        }
        "floats.into_iter().flatten().any(|x| «x.len() > MAX_FRAMES»)" {
            "2,048 frames are too many" => "x.len() >= MAX_FRAMES";
            "2,049 frames are admitted" => "x.len() > MAX_FRAMES + 1";
        }
        "let floats = [\n            «self.db»," {
            "1 not tested of dB" => "None";
        }
        "marks.into_iter().flatten().any(|x| «x.len() > MAX_FRAMES»)" {
            "2,048 marks are too many" => "x.len() >= MAX_FRAMES";
        }
        "self.nuclei.is_some_and(|x| «x.len() > MAX_FRAMES»)" {
            "2,048 nuclei are too many" => "x.len() >= MAX_FRAMES";
            "1 not tested of nuclei" => "x.len() > usize::MAX / 2";
        }
        "let floats = [\n            self.db,\n            «self.pitch.map(|(p, _)| p)»," {
            "1 not tested of pitches" => "None";
        }
        "            «self.voiced_p»,\n            self.sonority,\n        ];" {
            "1 not tested of voiced_p" => "None";
        }
        "            self.voiced_p,\n            «self.sonority»,\n        ];" {
            "1 not tested of sonority" => "None";
        }
        "let marks = [«self.speech», self.vowel];\n        floats" {
            "1 not tested of speech marks" => "None";
        }
        "let marks = [self.speech, «self.vowel»];\n        floats" {
            "1 not tested of vowel marks" => "None";
        }
        "let tracks = «[self.db, self.pitch.map(|(p, _)| p), self.voiced_p]»;" {
            "2 not tested of voiced_p" => "[self.db, self.pitch.map(|(p, _)| p), None]";
            "2 not tested of pitches" => "[self.db, self.voiced_p, None]";
            "2 tested of sonority" => "[self.pitch.map(|(p, _)| p), self.sonority, self.voiced_p]";
        }
        "any(|x| «x.len() != n»)" {
            "longer ones admitted" => "x.len() < n";
            "shorter ones admitted" => "x.len() > n";
        }
        "let good = |v: f32| «(0.0..=200.0).contains(&v)»;" {
            "200 refused" => "(0.0..200.0).contains(&v)";
            "0 refused" => "v > 0.0 && v <= 200.0";
            "-0.0 refused" => "v.to_bits() != 0x8000_0000 && (0.0..=200.0).contains(&v)";
            "NaN admitted" => "!(v < 0.0 || v > 200.0)";
            "no upper limit" => "v >= 0.0";
            "no lower limit" => "v <= 200.0";
            "only NaN and infinities refused" => "v.is_finite()";
        }
        "«!good(s.margin)» ||" {
            "the margin not tested" => "s.margin == 1e30";
        }
        "|| «!good(s.dip)» ||" {
            "the dip not tested" => "s.dip == 1e30";
        }
        "|| «s.gap > 1000»)" {
            "a gap of 1,000 refused" => "s.gap >= 1000";
            "the gap not tested" => "s.gap > u32::MAX - 1";
            "a gap of 0 refused" => "s.gap > 1000 || s.gap == 0";
        }
        "|d: &f32| «d.is_finite() && d.abs() > 1000.0»;" {
            "1,000 dB refused" => "d.is_finite() && d.abs() >= 1000.0";
            "no lower limit of dB" => "d.is_finite() && *d > 1000.0";
            "no upper limit of dB" => "d.is_finite() && *d < -1000.0";
            "infinite dB refused" => "d.abs() > 1000.0";
            "dB that is not finite refused" => "!d.is_finite() || d.abs() > 1000.0";
        }
        "let none = |p: f32| «p.to_bits() == 0»;" {
            "-0.0 is no pitch" => "p == 0.0";
            "a frame must have a pitch" => "p.to_bits() == 1";
        }
        "!none(p) && «!(lo..=hi).contains(&p)»" {
            "the least pitch refused" => "!(p > lo && p <= hi)";
            "the highest pitch refused" => "!(lo..hi).contains(&p)";
            "NaN is a pitch" => "(p < lo || p > hi)";
            "no lower limit of pitch" => "!(p <= hi)";
            "no upper limit of pitch" => "!(p >= lo)";
        }
        "pitches || «self.voiced_p.is_some_and(|v| !all_shares(v))»" {
            "voiced_p not tested" => "false";
        }
        "«self.sonority.is_some_and(|s| !all_shares(s))»" {
            "sonority not tested" => "false";
        }
        "let marks = [«self.speech», self.vowel];\n        self.sonority" {
            "speech marks not tested" => "None";
        }
        "let marks = [self.speech, «self.vowel»];\n        self.sonority" {
            "vowel marks not tested" => "None";
        }
        "any(|&m| «m > 1»)" {
            "a mark of 2 admitted" => "m > 2";
            "a mark of 1 refused" => "m > 0";
            "marks past the track not tested" => "m > 1 && marks.iter().flatten().all(|x| x.len() <= self.frames())";
        }
        "|(start, end)| «start > end» ||" {
            "an empty region refused" => "start >= end";
            "a region's order not tested" => "start == u32::MAX - 7";
        }
        "|| «end as usize > self.frames()»" {
            "a region up to the track's end refused" => "end as usize >= self.frames()";
            "a region's end not tested" => "end == u32::MAX - 7";
            "a region one past the track admitted" => "end as usize > self.frames() + 1";
        }
        "|w| «w[0] >= w[1]»" {
            "a nucleus twice admitted" => "w[0] > w[1]";
            "falling nuclei admitted" => "w[0] == w[1]";
        }
        "|&f| «f as usize >= self.frames()»" {
            "a nucleus just past the track admitted" => "f as usize > self.frames()";
            "the last frame is no nucleus" => "f as usize + 1 >= self.frames()";
            "only the last nucleus tested" => "f as usize >= self.frames() && frames.last() == Some(&f) && frames.len() == 1";
        }
        "|count| «count > MAX_SAMPLES»" {
            "the most samples refused" => "count >= MAX_SAMPLES";
            "samples not tested" => "count > usize::MAX / 2";
            "samples for 2,047 frames" => "count > MAX_SAMPLES - 160";
        }
        "|&(room, more)| «room < n + more»" {
            "a list as long as it must be refused" => "room <= n + more";
            "n boundaries are room enough" => "room < n";
            "one entry too few admitted" => "room + 1 < n + more";
            "room not tested" => "room > usize::MAX / 2 && n + more > 0";
        }
        "xs.iter().all(|x| «(0.0..=1.0).contains(x)»)" {
            "a share of 1 refused" => "(0.0..1.0).contains(x)";
            "a share of 0 refused" => "*x > 0.0 && *x <= 1.0";
            "a share of -0.0 refused" => "x.to_bits() != 0x8000_0000 && (0.0..=1.0).contains(x)";
            "a share of NaN admitted" => "!(*x < 0.0 || *x > 1.0)";
            "shares without an upper limit" => "*x >= 0.0";
            "shares without a lower limit" => "*x <= 1.0";
        }
    }
    "entries" "judge/src/entry.rs" {
        "rooms: &[(«marks.len()», 0)]," {
            "no room tested for speech marks" => "usize::MAX / 4";
            "a speech mark more" => "marks.len().saturating_sub(1)";
        }
        "Ok(«put(marks, marked(db, settings))»)" {
            "marks of silence" => "put(marks, marked(db, settings).iter().map(|m| 1 - m))";
            "speech frames counted" => "let found = marked(db, settings); let count = found.iter().filter(|m| **m == 1).count(); put(marks, found); count";
        }
        "Ok(«found_region(db, settings)»)" {
            "an absent region is the whole track" => "found_region(db, settings).or(Some((0, db.len() as u32)))";
            "an absent region is an empty one" => "found_region(db, settings).or(Some((0, 0)))";
        }
        "pitch: Some((pitch, «REPAIRABLE»)),\n        ..Given::default()\n    })?;\n    repaired(pitch);" {
            "the repair admits 20 to 4,000" => "PITCH";
        }
        "    })?;\n    «repaired(pitch);»\n    Ok(())" {
            "the repair entry changes nothing" => "";
            "repaired twice" => "repaired(pitch); if pitch.iter().all(|p| *p == 0.0 || (40.0..=2000.0).contains(p)) { repaired(pitch); }";
        }
        "pitch: Some((pitch, «PITCH»)),\n        speech: Some(speech)," {
            "the recovery admits 40 to 2,000" => "REPAIRABLE";
        }
        "samples: «Some(samples.len())»,\n        ..Given::default()\n    })?;\n    recovered(pitch, samples, speech, vowel);" {
            "samples not tested in the recovery" => "None";
        }
        "    «recovered(pitch, samples, speech, vowel);»\n    Ok(())" {
            "the recovery entry changes nothing" => "";
            "the two marks exchanged" => "recovered(pitch, samples, vowel, speech);"
                same "a frame is tried where both marks are 1";
            "recovered twice" => "recovered(pitch, samples, speech, vowel); recovered(pitch, samples, speech, vowel);"
                same "a stretch of the second call is one of the first that a pitch was within reach of, and pitches only grow in number";
            "repaired as well" => "recovered(pitch, samples, speech, vowel); if pitch.iter().all(|p| *p == 0.0 || (40.0..=2000.0).contains(p)) { repaired(pitch); }";
        }
        "pitch: Some((pitch, «PITCH»)),\n        settings: Some(settings),\n        region: Some(region),\n        rooms" {
            "nuclei admit 40 to 2,000" => "REPAIRABLE";
        }
        "«»Ok(put(list, found_nuclei(db, pitch, settings, region)))" {
            "the nucleus list cleared" => "list.fill(BLANK);";
            "nuclei by the defaults" => "return Ok(put(list, found_nuclei(db, pitch, DEFAULTS, region)));";
            "nuclei of the whole track" => "return Ok(put(list, found_nuclei(db, pitch, settings, (0, db.len() as u32))));";
        }
        "pitch: Some((pitch, «PITCH»)),\n        sonority: Some(sonority)," {
            "extras admit 40 to 2,000" => "REPAIRABLE";
        }
        "rooms: &[«(list.len(), 0)», (edges.len(), 0)]," {
            "no room tested for extras" => "(usize::MAX / 4, 0)";
        }
        "rooms: &[(list.len(), 0), «(edges.len(), 0)»]," {
            "no room tested for extra edges" => "(usize::MAX / 4, 0)";
            "an edge more" => "(edges.len(), 1)";
        }
        "    «»Ok((put(list, found.0), put(edges, found.1)))" {
            "the extras list cleared" => "list.fill(BLANK);";
            "the edge list cleared" => "edges.fill(0);";
        }
        "    let found = found_boundaries(db, pitch, voiced_p, settings, region, nuclei);\n    «»Ok(put(list, found))" {
            "the boundary list cleared" => "list.fill(0);";
        }
        "let found = «found_boundaries(db, pitch, voiced_p, settings, region, nuclei)»;\n    Ok(" {
            "boundaries by the defaults" => "found_boundaries(db, pitch, voiced_p, DEFAULTS, region, nuclei)";
        }
        "pitch: Some((pitch, «PITCH»)),\n        voiced_p: Some(voiced_p),\n        region" {
            "boundaries admit 40 to 2,000" => "REPAIRABLE";
        }
        "settings: «Some(settings)»,\n        ..for_boundaries" {
            "settings not tested in the boundaries" => "None";
        }
        "        nuclei,\n        &[(list.len(), «1»)],\n    ))?;" {
            "room of n in the boundaries by the defaults" => "0";
        }
        "..for_boundaries(db, pitch, voiced_p, region, nuclei, &[(list.len(), «1»)])" {
            "room of n in the boundaries" => "0";
        }
        "let found = found_boundaries(db, pitch, «voiced_p», DEFAULTS, region, nuclei);" {
            "voiced_p not given on" => "&[]";
        }
        "let found = found_boundaries(db, pitch, voiced_p, «DEFAULTS», region, nuclei);" {
            "2 dB still for the default dip, as the Rust has it" => "CLASSIC";
            "4 dB for the default dip" => "Settings { dip: 4.0, ..DEFAULTS }";
            "20 dB for the default margin" => "Settings { margin: 20.0, ..DEFAULTS }";
            "6 dB for the default margin" => "Settings { margin: 6.0, ..DEFAULTS }";
            "10 frames for the default gap" => "Settings { gap: 10, ..DEFAULTS }"
                same "the boundaries, which alone take the defaults, read no gap";
        }
        "hz: «(hz != 0.0).then_some(hz)»," {
            "a pitch from 50 Hz" => "(hz >= 50.0).then_some(hz)";
        }
        "voiced_p: «voiced_p.get(i).copied().unwrap_or(0.0)»," {
            "voiced_p of the frame before" => "voiced_p.get(i.wrapping_sub(1)).copied().unwrap_or(0.0)";
        }
        "f32::from(v) / «32_768.0»" {
            "samples over 32,767" => "32_767.0";
        }
        "marks.iter().map(|&m| «m == 1»)" {
            "marks the other way" => "m == 0";
        }
        "list[«count»] = entry;" {
            "results at the end of the list" => "list.len() - 1 - count";
        }
    }
    "chain" "judge/src/entry.rs" {
        "«»admitted(&Given {\n        db: Some(frames.db)," {
            "repaired before it is refused" => "if pitch.iter().all(|p| *p == 0.0 || (40.0..=2000.0).contains(p)) { repaired(pitch); }";
            "the nucleus list cleared before it is refused" => "lists.nuclei.fill(BLANK);";
        }
        "pitch: Some((pitch, «REPAIRABLE»)),\n        voiced_p" {
            "the chain admits 20 to 4,000" => "PITCH";
        }
        "voiced_p: «Some(frames.voiced_p)»," {
            "the chain does not test voiced_p" => "None";
        }
        "sonority: «Some(frames.sonority)»," {
            "the chain does not test sonority" => "None";
        }
        "vowel: «Some(frames.vowel)»," {
            "the chain does not test vowel marks" => "None";
        }
        "settings: «Some(settings)»,\n        samples" {
            "the chain does not test settings" => "None";
        }
        "samples: «Some(samples.len())»,\n        rooms" {
            "the chain does not test samples" => "None";
        }
        "(«lists.nuclei.len()», 0)" {
            "no room tested for the chain's nuclei" => "usize::MAX / 4";
        }
        "(«lists.extras.len()», 0)" {
            "no room tested for the chain's extras" => "usize::MAX / 4";
        }
        "(«lists.edges.len()», 0)" {
            "no room tested for the chain's edges" => "usize::MAX / 4";
        }
        "(«lists.boundaries.len()», 1)" {
            "no room tested for the chain's boundaries" => "usize::MAX / 4";
            "room of n for the chain's boundaries" => "lists.boundaries.len() + 1";
        }
        "«recovered(pitch, samples, &marked(frames.db, settings), frames.vowel);\n    repaired(pitch);»" {
            "repaired before it is recovered, as before version 6" => "repaired(pitch); recovered(pitch, samples, &marked(frames.db, settings), frames.vowel);";
            "not repaired" => "recovered(pitch, samples, &marked(frames.db, settings), frames.vowel);";
            "not recovered" => "repaired(pitch);";
            "recovered without speech marks" => "recovered(pitch, samples, &vec![1; pitch.len()], frames.vowel); repaired(pitch);";
            "recovered without vowel marks" => "recovered(pitch, samples, &marked(frames.db, settings), &vec![1; pitch.len()]); repaired(pitch);";
            "speech marks by the default margin" => "recovered(pitch, samples, &marked(frames.db, DEFAULTS), frames.vowel); repaired(pitch);";
            "repaired before the recovery too" => "repaired(pitch); recovered(pitch, samples, &marked(frames.db, settings), frames.vowel); if pitch.iter().all(|p| *p == 0.0 || (40.0..=2000.0).contains(p)) { repaired(pitch); }";
            "repaired twice after the recovery" => "recovered(pitch, samples, &marked(frames.db, settings), frames.vowel); repaired(pitch); if pitch.iter().all(|p| *p == 0.0 || (40.0..=2000.0).contains(p)) { repaired(pitch); }";
            "recovered again after the repair" => "recovered(pitch, samples, &marked(frames.db, settings), frames.vowel); repaired(pitch); recovered(pitch, samples, &marked(frames.db, settings), frames.vowel);"
                same "the repair moves no voicing, and a stretch that is left has a pitch within reach of it, of which there are only more";
            "given pitches not repaired" => "let given = pitch.to_vec(); recovered(pitch, samples, &marked(frames.db, settings), frames.vowel); repaired(pitch); for (p, g) in pitch.iter_mut().zip(given) { if g != 0.0 { *p = g; } }";
            "recovered pitches repaired without the given ones" => "let mut given = pitch.to_vec(); recovered(pitch, samples, &marked(frames.db, settings), frames.vowel); for (p, g) in pitch.iter_mut().zip(&given) { if *g != 0.0 { *p = 0.0; } } repaired(pitch); repaired(&mut given); for (p, g) in pitch.iter_mut().zip(given) { if g != 0.0 { *p = g; } }"
                same "recovered frames are 4 or more from given ones, so that no run has both";
            "repaired only where there is a region" => "recovered(pitch, samples, &marked(frames.db, settings), frames.vowel); if found_region(frames.db, settings).is_some() { repaired(pitch); }";
            "recovered in the region only" => "if let Some((start, end)) = found_region(frames.db, settings) { let speech: Vec<u8> = marked(frames.db, settings).iter().enumerate().map(|(i, &m)| if (start as usize..end as usize).contains(&i) { m } else { 0 }).collect(); recovered(pitch, samples, &speech, frames.vowel); } repaired(pitch);";
            "recovered with the samples' first half" => "recovered(pitch, &samples[..samples.len() / 2], &marked(frames.db, settings), frames.vowel); repaired(pitch);";
            "marks by the pitches before the repair" => "recovered(pitch, samples, &marked(frames.db, settings), frames.vowel); let joined = pitch.to_vec(); repaired(pitch); if let Some(region) = found_region(frames.db, settings) { let marks = found_nuclei(frames.db, &joined, settings, region); let nuclei: Vec<u32> = marks.iter().map(|m| m.frame).collect(); let (extras, edges) = found_extras(frames.db, &joined, frames.sonority, settings, region, &nuclei); let boundaries = found_boundaries(frames.db, &joined, frames.voiced_p, settings, region, &nuclei); return Ok(Found { region: Some(region), nuclei: put(lists.nuclei, marks), extras: put(lists.extras, extras), edges: put(lists.edges, edges), boundaries: put(lists.boundaries, boundaries) }); }";
        }
        "let Some(region) = «found_region(frames.db, settings)» else {" {
            "the region by the default margin" => "found_region(frames.db, DEFAULTS)";
            "no region is the whole track" => "found_region(frames.db, settings).or(Some((0, frames.db.len() as u32)))";
        }
        "let marks = «found_nuclei(frames.db, pitch, settings, region)»;" {
            "the chain's nuclei of the whole track" => "found_nuclei(frames.db, pitch, settings, (0, pitch.len() as u32))";
            "the chain's nuclei by the defaults" => "found_nuclei(frames.db, pitch, DEFAULTS, region)";
        }
        "«found_extras(frames.db, pitch, frames.sonority, settings, region, &nuclei)»" {
            "extras without the nuclei" => "found_extras(frames.db, pitch, frames.sonority, settings, region, &[])";
            "extras of the whole track" => "found_extras(frames.db, pitch, frames.sonority, settings, (0, pitch.len() as u32), &nuclei)";
            "extras from voiced_p" => "found_extras(frames.db, pitch, frames.voiced_p, settings, region, &nuclei)";
            "extras by the defaults" => "found_extras(frames.db, pitch, frames.sonority, DEFAULTS, region, &nuclei)";
        }
        "«found_boundaries(frames.db, pitch, frames.voiced_p, settings, region, &nuclei)»" {
            "boundaries by the defaults" => "found_boundaries(frames.db, pitch, frames.voiced_p, DEFAULTS, region, &nuclei)";
            "boundaries of nuclei and extras" => "let mut both = nuclei.clone(); both.extend(extras.iter().map(|m| m.frame)); both.sort_unstable(); both.dedup(); found_boundaries(frames.db, pitch, frames.voiced_p, settings, region, &both)";
            "boundaries with the extra edges" => "let mut both = found_boundaries(frames.db, pitch, frames.voiced_p, settings, region, &nuclei); both.extend(&edges); both.sort_unstable(); both.dedup(); both.truncate(lists.boundaries.len()); both";
            "boundaries from sonority" => "found_boundaries(frames.db, pitch, frames.sonority, settings, region, &nuclei)";
        }
        "    «»Ok(Found {\n        region: Some(region)," {
            "the chain's nucleus list cleared" => "lists.nuclei.fill(BLANK);";
            "the chain's extras list cleared" => "lists.extras.fill(BLANK);";
            "the chain's edge list cleared" => "lists.edges.fill(0);";
            "the chain's boundary list cleared" => "lists.boundaries.fill(0);";
        }
    }
    "take" "judge/src/take.rs" {
        "«version != VERSION» ||" {
            "the version not tested" => "version == VERSION && false";
            "versions from 1 on" => "version < VERSION";
            "version 0 too" => "version > VERSION";
        }
        "|| «length != HEAD + RECORD * n» ||" {
            "the length not tested" => "length == usize::MAX";
            "a longer length admitted" => "length < HEAD + RECORD * n";
            "the length of the whole file" => "length != 4 + HEAD + RECORD * n";
        }
        "|| «file.len() != 4 + length» {" {
            "the file's size not tested" => "file.len() == usize::MAX";
            "bytes past the end admitted" => "file.len() < 4 + length";
            "a cut file admitted" => "file.len() > 4 + length";
        }
        "«»if version != VERSION" {
            "1 before 11" => "if n > MAX_FRAMES { return Err(1); }";
        }
        "if «n > MAX_FRAMES» {" {
            "2,048 frames refused" => "n >= MAX_FRAMES";
            "more frames answered with 11" => "n > MAX_FRAMES && { return Err(11); }";
        }
        "let head = «(|| Some((r.size()?, r.u8()?, usize::from(r.u16()?))))()»;" {
            "the count's bytes the other way" => "(|| Some((r.size()?, r.u8()?, usize::from(r.u16()?.swap_bytes()))))()";
            "the length's bytes the other way" => "(|| Some((r.u32()?.swap_bytes() as usize, r.u8()?, usize::from(r.u16()?))))()";
        }
        "let (length, version, n) = head.ok_or(«11»)?;" {
            "a short file refused with 1" => "1";
        }
        "let mut take = «Take::empty(Settings {\n            margin: r.f32()?,\n            dip: r.f32()?,\n            gap: r.u32()?,\n        })»;" {
            "dip before margin" => "Take::empty(Settings { dip: r.f32()?, margin: r.f32()?, gap: r.u32()? })";
            "gap before margin" => "Take::empty(Settings { gap: r.u32()?, margin: r.f32()?, dip: r.f32()? })";
            "the defaults" => "r.bytes(12)?; Take::empty(entry::DEFAULTS)";
        }
        "«take.db.push(r.f32()?);\n            take.pitch.push(r.f32()?);\n            take.voiced_p.push(r.f32()?);\n            take.sonority.push(r.f32()?);\n            take.vowel.push(r.u8()?);»" {
            "pitch before dB" => "take.pitch.push(r.f32()?); take.db.push(r.f32()?); take.voiced_p.push(r.f32()?); take.sonority.push(r.f32()?); take.vowel.push(r.u8()?);";
            "sonority before voiced_p" => "take.db.push(r.f32()?); take.pitch.push(r.f32()?); take.sonority.push(r.f32()?); take.voiced_p.push(r.f32()?); take.vowel.push(r.u8()?);";
            "the vowel mark first" => "take.vowel.push(r.u8()?); take.db.push(r.f32()?); take.pitch.push(r.f32()?); take.voiced_p.push(r.f32()?); take.sonority.push(r.f32()?);";
        }
        "«Take::read(file).and_then(|take| marks(&take, samples))»" {
            "the marks of a refused file" => "Take::read(file).and_then(|take| marks(&take, samples)).or(Ok(\"region none\\n\".to_string()))";
        }
        "Err(number) => «format!(\"refused {number}\\n\")»," {
            "no newline after a refusal" => "format!(\"refused {number}\")";
            "a refusal's number with a colon" => "format!(\"refused: {number}\\n\")";
        }
        "if «new.to_bits() != old.to_bits()» {" {
            "every pitch is listed" => "*new != 0.0";
            "no pitch is listed" => "new.to_bits() == 1";
            "pitches listed that grew" => "new > old";
        }
        "format_args!(\"pitch {i} {:08x}\", «new.to_bits()»)" {
            "the old pitch" => "old.to_bits()";
            "the pitch as a whole number" => "*new as u32";
        }
        "line(&mut out, format_args!(\"region {start} {end}\"))" {
            "the region's last frame" => "line(&mut out, format_args!(\"region {start} {}\", end - 1))";
            "a comma in the region" => "line(&mut out, format_args!(\"region {start}, {end}\"))";
        }
        "line(&mut out, format_args!(\"region none\"))" {
            "no region: no line" => "";
            "no region: an empty one" => "line(&mut out, format_args!(\"region 0 0\"))";
        }
        "in «[\n        (\"nucleus\", &nuclei[..found.nuclei]),\n        (\"extra\", &extras[..found.extras]),\n    ]» {" {
            "extras before nuclei" => "[(\"extra\", &extras[..found.extras]), (\"nucleus\", &nuclei[..found.nuclei])]";
            "no extras listed" => "[(\"nucleus\", &nuclei[..found.nuclei]), (\"extra\", &extras[..0])]";
        }
        "line(&mut out, format_args!(\"{word} {} {bits:08x}\", mark.frame));" {
            "no zeros before" => "line(&mut out, format_args!(\"{word} {} {bits:x}\", mark.frame));";
            "upper case" => "line(&mut out, format_args!(\"{word} {} {bits:08X}\", mark.frame));";
            "the strength in dB" => "line(&mut out, format_args!(\"{word} {} {}\", mark.frame, mark.strength));";
            "no strength" => "line(&mut out, format_args!(\"{word} {}\", mark.frame)); let _ = bits;";
        }
        "in «[\n        (\"extra-edge\", &edges[..found.edges]),\n        (\"boundary\", &boundaries[..found.boundaries]),\n    ]» {" {
            "boundaries before edges" => "[(\"boundary\", &boundaries[..found.boundaries]), (\"extra-edge\", &edges[..found.edges])]";
            "edges without their hyphen" => "[(\"edge\", &edges[..found.edges]), (\"boundary\", &boundaries[..found.boundaries])]";
            "no edges listed" => "[(\"extra-edge\", &edges[..0]), (\"boundary\", &boundaries[..found.boundaries])]";
        }
        "line(&mut out, format_args!(\"{word} {frame}\"));" {
            "edges and boundaries from 1" => "line(&mut out, format_args!(\"{word} {}\", frame + 1));";
        }
    }
    "orders" "judge/src/kinds.rs" {
        "«x.is_finite().into()»" {
            "an infinity is finite" => "(!x.is_nan()).into()";
        }
        "xs.sort_by(f32::total_cmp);" {
            "zeros in the order given" => "xs.sort_by(|a, b| a.partial_cmp(b).unwrap_or(std::cmp::Ordering::Equal));";
            "by the bits" => "xs.sort_by_key(|x| x.to_bits());";
            "falling" => "xs.sort_by(|a, b| b.total_cmp(a));";
        }
        "xs.sort_unstable();" {
            "by the lower 32 bits" => "xs.sort_by_key(|x| *x as u32);";
            "as signed numbers" => "xs.sort_by_key(|x| *x as i64);";
            "each number once" => "xs.sort_unstable(); xs.dedup();";
        }
        "b.1.total_cmp(&a.1).then(a.0.cmp(&b.0))" {
            "rising weights" => "a.1.total_cmp(&b.1).then(a.0.cmp(&b.0))";
            "the later frame first on a tie" => "b.1.total_cmp(&a.1).then(b.0.cmp(&a.0))";
            "ties as given" => "b.1.total_cmp(&a.1)";
            "zeros tie" => "(b.1 + 0.0).total_cmp(&(a.1 + 0.0)).then(a.0.cmp(&b.0))";
        }
        "w.answer(«x as f32»)" {
            "rounded towards zero" => "let y = x as f32; if f64::from(y).abs() > x.abs() { f32::from_bits(y.to_bits() - 1) } else { y }";
            "ties away from zero" => "let y = x as f32; let up = f32::from_bits(y.to_bits().wrapping_add(1)); if y.is_finite() && up.is_finite() && f64::from(up) - x == x - f64::from(y) { up } else { y }";
            "subnormals to zero" => "let y = x as f32; if y.is_subnormal() { 0.0 * y } else { y }";
        }
    }
};
