//! Files whose form is wrong, or that come close to it: good files with one thing changed.

use crate::file::{File, Words};
use crate::interpret::{FILE_MOST, STEPS_MOST};
use crate::sound::{chase, small};
use model::rng::Rng;

/// Bytes that are not of the form, or only just.
const BYTES: &[u8] = b"\t\r\0\x0b\x0c,;.:-+/xXaAeE_\"'#\x1f!\x7f\x80\x8a\xa0\xb0\xb9\xff 0195\n";

fn good(rng: &mut Rng) -> Words {
    let s = small(rng);
    let length = rng.between(0, 12) as usize;
    Words::new(&s, &chase(rng, &s, length)).either(rng)
}

/// One byte changed, put in or taken out, or the end cut off.
fn one_byte(rng: &mut Rng) -> File {
    let words = good(rng);
    let mut bytes = if rng.once_in(2) { words.plain() } else { words.varied(rng) };
    let at = rng.below(bytes.len() as u64) as usize;
    let other = if rng.once_in(4) { rng.word() as u8 } else { rng.pick(BYTES) };
    let rule = match rng.below(5) {
        0 => {
            bytes[at] = other;
            "byte changed"
        }
        1 => {
            bytes.insert(at, other);
            "byte put in"
        }
        2 => {
            bytes.push(other);
            "byte at the end"
        }
        3 => {
            bytes.remove(at);
            "byte taken out"
        }
        _ => {
            bytes.truncate(at);
            "cut off"
        }
    };
    File::new(rule, bytes)
}

/// Some or all separators replaced by another byte.
fn separators(rng: &mut Rng) -> File {
    let mut bytes = good(rng).plain();
    let other = rng.pick(BYTES);
    let often = rng.pick(&[1, 1, 4]);
    bytes
        .iter_mut()
        .filter(|byte| **byte == b' ')
        .for_each(|byte| *byte = if rng.once_in(often) { other } else { b' ' });
    File::new("other separator", bytes)
}

/// One word that is no decimal number.
fn words(rng: &mut Rng) -> File {
    let words = good(rng);
    let at = rng.below(words.0.len() as u64) as usize;
    let old = words.0[at].clone();
    let word = match rng.below(12) {
        0 => format!("-{old}"),
        1 => format!("+{old}"),
        2 => format!("0x{old}"),
        3 => format!("{old}."),
        4 => format!("{old}e0"),
        5 => format!("{old}h"),
        6 => "six".to_string(),
        7 => "-".to_string(),
        8 => format!("{old}\0"),
        9 => format!("{old}\r"),
        10 => format!("\u{0661}{old}"),
        _ => "65535t".to_string(),
    };
    File::new("other word", words.set(at, word).plain())
}

/// Counts that do not fit: another first count, one step more or less than the second count says. With 7 for 6, or 6 for 7,
/// a number more or less, such a file may also be a trace again.
fn counts(rng: &mut Rng) -> File {
    let words = good(rng);
    let second = words.second_count();
    let steps = words.0.len() - second - 1;
    let words = match rng.below(11) {
        0 => {
            let firsts =
                ["5", "6", "7", "8", "0", "1", "60", "70", "16", "17", "66", "65535", "262", "263", "4294967295"];
            words.set(0, rng.pick(&firsts))
        }
        // Another first count, and as many settings as it says.
        1 => {
            let mut words = words.set(0, (second - 2).to_string());
            words.0.remove(rng.between(1, second as u64 - 1) as usize);
            words
        }
        2 | 3 => {
            let mut words = words.set(0, second.to_string());
            words.0.insert(rng.between(1, second as u64) as usize, rng.pick(&["1", "2", "16"]).to_string());
            words
        }
        5 if steps > 0 => words.set(second, (steps - 1).to_string()),
        6 => words.set(second, rng.pick(&["4097", "65535", "65536", "4294967295", "0"])),
        7 => {
            let mut words = words;
            words.0.push(rng.pick(&["0", "1", "65535", "6", "7"]).to_string());
            words
        }
        8 => Words(words.0[..rng.below(words.0.len() as u64 + 1) as usize].to_vec()),
        9 => Words(words.0[rng.between(1, words.0.len() as u64) as usize..].to_vec()),
        _ => words.set(second, (steps + 1).to_string()),
    };
    let bytes = if rng.once_in(3) { words.varied(rng) } else { words.plain() };
    File::new("other count", bytes)
}

/// Settings to be refused in a file whose form is refused: the form is judged first.
fn both(rng: &mut Rng) -> File {
    let words = good(rng);
    let second = words.second_count();
    let at = rng.between(1, second as u64 - 1) as usize;
    let mut words = words.set(at, rng.pick(&["0", "4294967295", "1360001"]));
    match rng.below(3) {
        0 => words.0.push("1".to_string()),
        1 => words.0.push("x".to_string()),
        _ => words = words.set(second, "4097"),
    }
    File::new("settings and form", words.plain())
}

/// Blanks and newlines alone, up to the limit and just past it; in half of the files one other byte is among them.
fn blank(rng: &mut Rng) -> File {
    let length = rng.pick(&[0, 1, 2, 9, 80, 4_096, FILE_MOST - 1, FILE_MOST, FILE_MOST, FILE_MOST + 1]);
    let mut bytes: Vec<u8> = (0..length).map(|_| rng.pick(b"   \n")).collect();
    if rng.once_in(2) && length > 0 {
        bytes[rng.below(length as u64) as usize] = rng.pick(BYTES);
    }
    File::new("blank", bytes)
}

/// Files of which there are only a few.
fn few(rng: &mut Rng, files: &mut Vec<File>) {
    let blank: [&[u8]; 8] = [b"", b" ", b"\n", b"\n\n  \n", b"\t", b"\0", b"\r\n", b"\xef\xbb\xbf"];
    files.extend(blank.map(|bytes| File::new("empty or blank", bytes)));
    let short: [&str; 17] = [
        "6",
        "0",
        "6 0",
        "6 6",
        "6 0 0",
        "0 0",
        "6 4 2 1 2 2 5",
        "6 4 2 1 2 2 5\n",
        "4 2 1 2 2 5 0",
        "0 6",
        "6 4",
        "7",
        "7 4 2 1 2 2 5",
        "7 4 2 1 2 2 5 1",
        "7 4 2 1 2 2 5 2\n",
        "8",
        "8 4 2 1 2 2 5 1 1",
    ];
    files.extend(short.map(|text| File::new("one section", text)));
    for length in [STEPS_MOST + 1, STEPS_MOST + 2, 5_000, 8_192, 32_000] {
        for step in [0, 65_535] {
            let s = small(rng);
            files.push(File::new("too many steps", Words::new(&s, &vec![step; length]).either(rng).plain()));
        }
    }
    // Every other byte as the only separator, and as the last byte.
    for byte in 0..=255u8 {
        let bytes: Vec<u8> = b"6 4 2 1 2 2 5 2 1 1".iter().map(|&b| if b == b' ' { byte } else { b }).collect();
        files.push(File::new("each byte as a separator", bytes));
        files.push(File::new("each byte at the end", [&b"6 4 2 1 2 2 5 2 1 1"[..], &[byte]].concat()));
        files.push(File::new("each byte at the start", [&[byte], &b"6 4 2 1 2 2 5 2 1 1"[..]].concat()));
    }
}

pub fn files(rng: &mut Rng, count: usize) -> Vec<File> {
    let mut files = Vec::new();
    few(rng, &mut files);
    let rules: [fn(&mut Rng) -> File; 9] =
        [one_byte, one_byte, one_byte, separators, words, counts, counts, both, blank];
    while files.len() < count {
        let rule = rng.pick(&rules);
        files.push(rule(rng));
    }
    files
}
