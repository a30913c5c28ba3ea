//! Files with the lines that document 01 prints for them, or that were derived by hand from 01 and 02.

use crate::bank_vectors;

const REFUSED: &str = "trace refused\n";

pub struct Vector {
    pub file: Vec<u8>,
    pub printed: String,
}

/// Document 01's session, from the repository's examples: the trace file and the lines printed for it, some of them by
/// document 02's Ask 4.
const SESSION: (&str, &str) =
    (include_str!("../../../examples/session.trace"), include_str!("../../../examples/session.lines"));

/// The repository's example with two banks, derived by hand.
const BANKS: (&str, &str) =
    (include_str!("../../../examples/banks.trace"), include_str!("../../../examples/banks.lines"));

/// Steps and settings, worked out line by line.
const DERIVED: [(&str, &str); 21] = [
    // Document 01's edges of the settings; 1 comes before 2.
    ("6 4 2 1 2 2 5 0", ""),
    ("6 4 2 1 2 2 6 0", "0 2 - - -\n"),
    ("6 4 1 1 2 2 5 0", "0 1 - - -\n"),
    ("6 4 1 1 2 2 6 0", "0 1 - - -\n"),
    // Settings are judged before the store, and nothing more is printed.
    ("6 60000 5500 8192 2 2 6 2 1 1", "0 2 - - -\n"),
    ("6 60001 5500 8192 2 2 5 2 1 1", "0 1 - - -\n"),
    ("6 4294967295 4294967295 4294967295 4294967295 4294967295 4294967295 0", "0 1 - - -\n"),
    // A = 1: each access moves the row, which leaves its own slot.
    (
        "6 1 2 1 1 1 1 7 0 0 65535 0 65535 0 0",
        "1 0 0 0 -\n2 8 - - -\n3 0 - - -\n4 0 1 1 -\n5 0 - - -\n6 0 2 0 -\n7 8 - - -\n",
    ),
    // A row that sits in the slot at the head passes it; the row in the next one goes home.
    (
        "6 2 2 1 1 1 1 9 0 65535 1 65535 0 65535 1 65535 0",
        "1 0 0 0 -\n2 0 - - -\n3 0 1 1 -\n4 0 - - -\n5 0 2 1 1\n6 0 - - -\n7 0 1 0 -\n8 0 - - -\n9 0 3 0 1\n",
    ),
    // Both slots gone by: 9, for every row, until a tick.
    ("6 2 2 1 3 1 3 6 0 0 0 1 65535 1", "1 0 0 0 -\n2 0 2 1 -\n3 9 - - -\n4 9 - - -\n5 0 - - -\n6 0 1 0 -\n"),
    // Row 1 leaves slot 1 worn; row 0, sent home for it, passes that slot and takes the last. No slot is left for row 2.
    (
        "6 3 3 1 3 1 3 9 0 1 2 65535 1 0 2 65535 2",
        "1 0 0 0 -\n2 0 1 1 -\n3 0 2 2 -\n4 0 - - -\n5 0 4 0 0\n6 0 0 2 2\n7 9 - - -\n8 0 - - -\n9 0 2 0 1\n",
    ),
    // Slot 1 is read A times and passed; slot 2, read A - 1 times, is not.
    (
        "6 4 3 1 3 2 7 12 0 0 1 1 2 2 65535 1 1 2 3 3",
        "1 0 0 - -\n2 0 0 0 -\n3 0 1 - -\n4 0 1 1 -\n5 0 2 - -\n6 0 2 2 -\n7 0 - - -\n8 0 5 - -\n9 0 5 0 0\n\
         10 0 6 - -\n11 0 3 - -\n12 0 3 2 2\n",
    ),
    // Row 0 passes its own slot 0 and takes slot 1; row 2 would pass its own slot 2 and slot 0, which is worn: 9.
    (
        "6 4 3 1 2 1 2 8 0 1 65535 2 65535 0 2 3",
        "1 0 0 0 -\n2 0 1 1 -\n3 0 - - -\n4 0 2 2 -\n5 0 - - -\n6 0 4 1 1\n7 9 - - -\n8 0 3 2 2\n",
    ),
    // One entry: row 1 raises spill, and row 2 then takes the entry with spill + 1 = A.
    ("6 3 2 1 1 2 3 4 0 1 2 0", "1 0 0 - -\n2 0 1 - -\n3 0 2 0 -\n4 8 - - -\n"),
    // Rows that do not exist, whatever the epoch.
    ("6 1 2 1 1 1 1 5 1 65534 65536 4294967295 0", "1 5 - - -\n2 5 - - -\n3 5 - - -\n4 5 - - -\n5 0 0 0 -\n"),
    // Ticks alone, with leading zeros.
    ("006 04 2 1 2 2 5 02 00065535 65535", "1 0 - - -\n2 0 - - -\n"),
    // Blanks and newlines lead, trail and repeat.
    ("\n\n 6\n4 2  1 2 2 5\n\n1 3 \n", "1 0 3 - -\n"),
    // Stores of exactly 32,768 bytes.
    ("6 32766 2 1 1 1 1 3 32765 65535 32765", "1 0 32765 0 -\n2 0 - - -\n3 0 32766 1 -\n"),
    ("6 2 2 8192 1 1 1 1 1", "1 0 1 0 -\n"),
    ("6 1 3 8192 4096 65535 1360000 1 0", "1 0 0 - -\n"),
    ("6 27268 5500 1 4096 1 4096 2 27267 27267", "1 0 27267 0 -\n2 0 27268 1 -\n"),
];

/// Empty traces, which print nothing (document 02, Ask 1): no bytes, or blanks and newlines alone.
const EMPTY: [&str; 7] = ["", " ", "\n", "\n\n", " \n", "\n ", "   \n \n\n  "];

/// Files refused whole.
const NO_TRACE: [&str; 42] = [
    // A section alone, or less than one.
    "0",
    "6",
    " 6\n",
    "6 4 2 1 2 2",
    "6 4 2 1 2 2 5",
    "6 4 2 1 2 2 5\n",
    "6 0 0 0 0 0 0",
    "4 2 1 2 2 5 0",
    // Bytes that look empty and are neither blank nor newline.
    "\t",
    "\r\n",
    "\0",
    " \t ",
    "\x0b",
    "\x0c",
    "\u{a0}",
    "\u{feff}",
    // Counts that do not fit.
    "5 4 2 1 2 2 0",
    "7 4 2 1 2 2 5 0",
    "0 0",
    "6 4 2 1 2 2 5 1",
    "6 4 2 1 2 2 5 0 0",
    "6 4 2 1 2 2 5 2 1",
    "6 4 2 1 2 2 5 1 1 1",
    "6 4 2 1 2 2 5 4097 1",
    // Bytes of no number and no blank.
    "6\t4 2 1 2 2 5 0",
    "6 4 2 1 2 2 5 0\r\n",
    "6,4,2,1,2,2,5,0",
    "6 4 2 1 2 2 5 0 \0",
    "+6 4 2 1 2 2 5 0",
    "6 4 2 1 2 2 5 1 -1",
    "6 4 2 1 2 2 5 1 0x1",
    "6 4 2 1 2 2 5 1 1.",
    "6 4 2 1 2 2 5 1 -",
    // Numbers too large, which modulo 2 to the 32 or 64 would do.
    "6 4 2 1 2 2 5 1 4294967296",
    "4294967302 4 2 1 2 2 5 0",
    "18446744073709551622 4 2 1 2 2 5 0",
    "6 4 2 1 2 2 4294967301 0",
    "6 4 2 1 2 2 5 4294967296",
    // The form is judged before the settings.
    "6 0 0 0 0 0 0 1",
    "6 4 1 1 2 2 5 0 0",
    // The store is one byte or more too large.
    "6 32767 2 1 1 1 1 0",
    "6 3 2 8192 1 1 1 0",
];

/// A = 1 and 40 slots, which rows 0 to 39 fill. Rows 20 to 38 leave their slots worn and take slots 0 to 18, and the rows in
/// these go home. Row 0 takes slot 19; row 1 passes slots 20 to 38 and takes the last; for row 2 no slot is left.
fn past_nineteen() -> Vector {
    let filled = (0..40).map(|row| (row, format!("0 {row} {row} -")));
    let tick = (65_535, "0 - - -".to_string());
    let worn = (0..19).map(|slot| (slot + 20, format!("0 {} {slot} {slot}", 40 + slot + 20)));
    let last = [(0, "0 0 19 19"), (1, "0 1 39 39"), (2, "9 - - -")].map(|(row, line)| (row, line.to_string()));
    let all: Vec<(u32, String)> = filled.chain([tick]).chain(worn).chain(last).collect();
    let mut file = format!("6 40 40 1 40 1 40 {}", all.len());
    let mut printed = String::new();
    for (at, (step, line)) in (1..).zip(&all) {
        file += &format!(" {step}");
        printed += &format!("{at} {line}\n");
    }
    Vector { file: file.into_bytes(), printed }
}

pub fn all() -> Vec<Vector> {
    let pair =
        |&(file, printed): &(&str, &str)| Vector { file: file.as_bytes().to_vec(), printed: printed.to_string() };
    let derived = DERIVED.iter().chain(&bank_vectors::DERIVED);
    let mut all: Vec<Vector> = [&SESSION, &BANKS].into_iter().chain(derived).map(pair).collect();
    let no_trace = NO_TRACE.iter().chain(&bank_vectors::NO_TRACE);
    all.extend(no_trace.map(|file| Vector { file: file.as_bytes().to_vec(), printed: REFUSED.to_string() }));
    all.extend(EMPTY.map(|file| Vector { file: file.as_bytes().to_vec(), printed: String::new() }));
    // The session with a first count of 7, and 1 after the other settings.
    let one_bank = SESSION.0.replacen("6 4 2 1 2 2 5", "7 4 2 1 2 2 5 1", 1);
    all.push(Vector { file: one_bank.into_bytes(), printed: SESSION.1.to_string() });
    // Blanks or newlines alone, up to the file's length and past it.
    for (length, printed) in [(65_535, ""), (65_536, ""), (65_537, REFUSED), (65_538, REFUSED), (131_072, REFUSED)] {
        for with in [" ", "\n", " \n"] {
            let file = with.bytes().cycle().take(length).collect();
            all.push(Vector { file, printed: printed.to_string() });
        }
    }
    // The session's numbers in a file of exactly 65,536 bytes, and in one of a byte more.
    let session = SESSION.0.trim_end();
    for (length, printed) in [(65_536, SESSION.1), (65_537, REFUSED)] {
        for with in [' ', '\n', '0'] {
            let fill = with.to_string().repeat(length - session.len());
            all.push(Vector { file: format!("{fill}{session}").into_bytes(), printed: printed.to_string() });
        }
    }
    // The session with its first number after 400 zeros, and with a row of 10 to the 400 in place of the last.
    let zeros = "0".repeat(400);
    all.push(Vector { file: format!("{zeros}{session}").into_bytes(), printed: SESSION.1.to_string() });
    let before_last = session.trim_end_matches(|c: char| c.is_ascii_digit());
    all.push(Vector { file: format!("{before_last}1{zeros}").into_bytes(), printed: REFUSED.to_string() });
    all.push(past_nineteen());
    // The most steps: row 3 and ticks in turn. One step more is refused.
    let pairs = |count: usize| "3 65535 ".repeat(count / 2) + if count.is_multiple_of(2) { "" } else { "3" };
    let lines = |count: usize| -> String {
        let line = |at: usize| if at.is_multiple_of(2) { format!("{at} 0 - - -\n") } else { format!("{at} 0 3 - -\n") };
        (1..=count).map(line).collect()
    };
    for (count, printed) in [(4_095, lines(4_095)), (4_096, lines(4_096)), (4_097, REFUSED.to_string())] {
        for settings in ["6 4 2 1 2 2 5", "7 4 2 1 2 2 5 1", "7 4 2 1 2 2 5 3"] {
            let file = format!("{settings} {count} {}", pairs(count)).into_bytes();
            all.push(Vector { file, printed: printed.clone() });
        }
    }
    all
}
