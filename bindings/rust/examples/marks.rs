//! marks [SOUND]: reads a take file on standard input and prints the listing of its marks;
//! docs/TAKE-FILE.md says what both look like. SOUND is a WAV file with the samples of the take; without
//! it there are none. Status 1 where something cannot be read or the listing not be written.

use kiddwyr::{chain, Lists, Nucleus, Refusal, Settings, Tracks, MAX_FRAMES};
use std::env;
use std::fs;
use std::io::{self, Read, Write};
use std::process::ExitCode;

const HEAD: usize = 19;
const RECORD: usize = 17;

#[derive(Default)]
struct Take {
    settings: Settings,
    db: Vec<f32>,
    pitch: Vec<f32>,
    voiced_p: Vec<f32>,
    sonority: Vec<f32>,
    vowel: Vec<u8>,
}

fn main() -> ExitCode {
    match run() {
        Ok(()) => ExitCode::SUCCESS,
        Err(e) => {
            eprintln!("marks: {e}");
            ExitCode::FAILURE
        }
    }
}

fn run() -> io::Result<()> {
    let samples = match env::args().nth(1) {
        Some(name) => sound(&fs::read(&name)?).ok_or_else(|| {
            let wanted = "a WAV file of 16-bit samples, 16,000 a second, in one channel";
            io::Error::other(format!("{name} is not {wanted}"))
        })?,
        None => Vec::new(),
    };
    let mut file = Vec::new();
    io::stdin().read_to_end(&mut file)?;
    let listing = take(&file).and_then(|take| list(&take, &samples));
    let listing = listing.unwrap_or_else(|Refusal(number)| format!("refused {number}\n"));
    io::stdout().write_all(listing.as_bytes())
}

fn u32_at(bytes: &[u8], at: usize) -> u32 {
    u32::from_be_bytes([bytes[at], bytes[at + 1], bytes[at + 2], bytes[at + 3]])
}

fn f32_at(bytes: &[u8], at: usize) -> f32 {
    f32::from_bits(u32_at(bytes, at))
}

/// The samples of a WAV file with the usual head; none where it has another form or ends too soon.
fn sound(wav: &[u8]) -> Option<Vec<i16>> {
    // PCM, one channel, 16,000 samples and 32,000 bytes a second, 2 bytes at a time, 16 bits.
    let form = *b"\x10\0\0\0\x01\0\x01\0\x80\x3e\0\0\0\x7d\0\0\x02\0\x10\0data";
    let (head, data) = wav.split_at_checked(44)?;
    let good = head.starts_with(b"RIFF") && head[8..16] == *b"WAVEfmt " && head[16..40] == form;
    let size = u32::from_le_bytes([head[40], head[41], head[42], head[43]]) as usize;
    let data = data.get(..size).filter(|_| good)?;
    let sample = |pair: &[u8]| i16::from_le_bytes([pair[0], pair[1]]);
    Some(data.chunks_exact(2).map(sample).collect())
}

/// The take of a file.
fn take(file: &[u8]) -> Result<Take, Refusal> {
    let [_, _, _, _, version, high, low, ..] = *file else {
        return Err(Refusal(11));
    };
    let n = usize::from(u16::from_be_bytes([high, low]));
    let whole = HEAD + RECORD * n;
    if version != 1 || u32_at(file, 0) as usize != whole - 4 || file.len() != whole {
        return Err(Refusal(11));
    }
    if n > MAX_FRAMES {
        return Err(Refusal(1));
    }
    let settings = Settings {
        margin: f32_at(file, 7),
        dip: f32_at(file, 11),
        gap: u32_at(file, 15),
    };
    let mut take = Take {
        settings,
        ..Take::default()
    };
    for record in file[HEAD..].chunks_exact(RECORD) {
        take.db.push(f32_at(record, 0));
        take.pitch.push(f32_at(record, 4));
        take.voiced_p.push(f32_at(record, 8));
        take.sonority.push(f32_at(record, 12));
        take.vowel.push(record[16]);
    }
    Ok(take)
}

/// The lines of a take's marks.
fn list(take: &Take, samples: &[i16]) -> Result<String, Refusal> {
    let n = take.db.len();
    let mut pitch = take.pitch.clone();
    let mut nuclei = vec![Nucleus::default(); n];
    let mut extras = nuclei.clone();
    let (mut edges, mut boundaries) = (vec![0; n], vec![0; n + 1]);
    let tracks = Tracks {
        db: &take.db,
        voiced_p: &take.voiced_p,
        sonority: &take.sonority,
        vowel: &take.vowel,
        samples,
    };
    let lists = Lists {
        nuclei: &mut nuclei,
        extras: &mut extras,
        edges: &mut edges,
        boundaries: &mut boundaries,
    };
    let found = chain(tracks, &mut pitch, take.settings, lists)?;

    let mut out = String::new();
    let changed = |&i: &usize| pitch[i].to_bits() != take.pitch[i].to_bits();
    for i in (0..n).filter(changed) {
        out += &format!("pitch {i} {:08x}\n", pitch[i].to_bits());
    }
    out += &match found.region {
        Some(r) => format!("region {} {}\n", r.start, r.end),
        None => "region none\n".to_string(),
    };
    out += &nucleus_lines("nucleus", &nuclei[..found.nuclei]);
    out += &nucleus_lines("extra", &extras[..found.extras]);
    out += &frame_lines("extra-edge", &edges[..found.edges]);
    out += &frame_lines("boundary", &boundaries[..found.boundaries]);
    Ok(out)
}

fn nucleus_lines(word: &str, list: &[Nucleus]) -> String {
    let line = |n: &Nucleus| format!("{word} {} {:08x}\n", n.frame, n.strength.to_bits());
    list.iter().map(line).collect()
}

fn frame_lines(word: &str, list: &[u32]) -> String {
    list.iter()
        .map(|frame| format!("{word} {frame}\n"))
        .collect()
}
