//! The trace program of document 01, with the empty trace and the banks of document 02, written a second time and from
//! these documents alone, over the second engine: bytes in, bytes out. One deliberate error can be planted.

use crate::flaw::Flaw;
use model::engine::{Model, Refusal, Served};
use model::memory::{Control, Memory, Settings, BANKS};
use std::fmt::Write;

pub const FILE_MOST: usize = 65_536;
const STORE_MOST: u64 = 32_768;
pub const ENTRIES_MOST: u64 = 4_096;
pub const STEPS_MOST: usize = 4_096;
pub const TICK: u32 = 65_535;

/// How a file was judged, and what its steps did.
#[derive(Clone, Copy, PartialEq, Eq, Debug)]
pub enum Verdict {
    /// The form is refused.
    Form,
    /// No bytes, or blanks and newlines alone.
    Empty,
    /// The settings are refused with this number.
    Settings(u32),
    /// The store is too large.
    Store,
    /// There are too many tracker entries, K × B.
    Entries,
    Ran(Seen),
}

#[derive(Clone, Copy, PartialEq, Eq, Debug, Default)]
pub struct Seen {
    /// Steps that read a row, by number.
    pub reads: [u64; 10],
    pub ticks: u64,
    pub moved: u64,
    /// Rows moved past slots that were not taken, and past more than 16 of them.
    pub past_slots: u64,
    pub past_many: u64,
    pub sent_home: u64,
    /// B of the trace; rows moved to a slot of another bank; and reads refused with 8 while the home's bank had room.
    pub banks: u32,
    pub to_other_bank: u64,
    pub slot_full: u64,
}

impl Seen {
    /// Takes in a read, with the control record before and after it. B may be one that an error has taken.
    fn read(&mut self, s: &Settings, row: u32, answer: &Result<Served, Refusal>, before: &Control, after: &Control) {
        let bank = |physical: usize| physical % (s.b as usize).clamp(1, BANKS);
        match answer {
            Ok(Served { place, moved_to, sent_home, .. }) => {
                let rise = after.passed.saturating_sub(before.passed);
                self.reads[0] += 1;
                self.moved += u64::from(moved_to.is_some());
                self.sent_home += u64::from(sent_home.is_some());
                self.past_slots += u64::from(rise > 1);
                self.past_many += u64::from(rise > 17);
                let other = moved_to.is_some_and(|slot| bank(s.n as usize + slot) != bank(*place));
                self.to_other_bank += u64::from(other);
            }
            Err(refusal) => {
                self.reads[refusal.number() as usize % 10] += 1;
                let room = before.acts[bank(row as usize)] < s.l;
                self.slot_full += u64::from(*refusal == Refusal::Epoch && room);
            }
        }
    }
}

pub struct Printed {
    pub text: String,
    pub verdict: Verdict,
}

/// What a byte means to the reader of numbers.
enum Symbol {
    Digit(u64),
    Blank,
    Nothing,
    End,
    Wrong,
}

fn symbol(byte: u8, flaw: Flaw) -> Symbol {
    let byte = if flaw == Flaw::HighBitDropped { byte & 127 } else { byte };
    match byte {
        b'0'..=b'9' => Symbol::Digit(u64::from(byte - b'0')),
        b' ' | b'\n' => Symbol::Blank,
        b'\t' if flaw == Flaw::TabIsBlank => Symbol::Blank,
        b'\r' if flaw == Flaw::ReturnIsBlank => Symbol::Blank,
        b',' if flaw == Flaw::CommaIsBlank => Symbol::Blank,
        b'+' | b'-' if flaw == Flaw::SignTaken => Symbol::Nothing,
        b'a'..=b'z' if flaw == Flaw::LetterEndsNumber => Symbol::Blank,
        0 if flaw == Flaw::NulEndsFile => Symbol::End,
        _ => Symbol::Wrong,
    }
}

/// A number with one more digit. Numbers stay below 2 to the 36, so nothing is lost.
fn with_digit(value: u64, digit: u64, flaw: Flaw) -> Option<u64> {
    let next = match flaw {
        Flaw::NumbersWrapAt64Bits => value.wrapping_mul(10).wrapping_add(digit),
        _ => value * 10 + digit,
    };
    match flaw {
        _ if next < 4_294_967_295 => Some(next),
        Flaw::NumbersWrapAt32Bits => Some(next % (1 << 32)),
        Flaw::NumbersWrapAt64Bits => Some(next),
        Flaw::LargeNumbersCut => Some(next.min(4_294_967_295)),
        Flaw::LargestNumberRefused => None,
        _ => Some(next).filter(|&next| next == 4_294_967_295),
    }
}

/// The numbers of a file; none where a byte is no digit and no blank, or a number is too large.
fn numbers(input: &[u8], flaw: Flaw) -> Option<Vec<u32>> {
    let mut all = Vec::new();
    let mut now: Option<(u64, usize)> = None;
    for (at, &byte) in input.iter().enumerate() {
        match symbol(byte, flaw) {
            Symbol::Digit(digit) => {
                let (value, digits) = now.unwrap_or((0, 0));
                if flaw == Flaw::LongNumbersRefused && digits == 10 {
                    return None;
                }
                now = Some((with_digit(value, digit, flaw)?, digits + 1));
            }
            Symbol::Blank => {
                let refused = match flaw {
                    Flaw::LeadingBlanksRefused => at == 0,
                    Flaw::RepeatedBlanksRefused => now.is_none() && at > 0,
                    _ => false,
                };
                if refused {
                    return None;
                }
                all.extend(now.take());
            }
            Symbol::Nothing => {}
            Symbol::End => break,
            Symbol::Wrong => return None,
        }
    }
    if flaw != Flaw::LastNumberNeedsBlank {
        all.extend(now);
    }
    // With numbers that wrap at 64 bits one may still be too large.
    all.into_iter().map(|(value, _)| u32::try_from(value).ok()).collect()
}

/// What a file is whose form is not refused.
enum Form {
    Empty,
    Trace(Settings, Vec<u32>),
}

/// The first section, and what follows it: "A trace whose first count is 6 has B = 1; with 7 the seventh number is B."
fn first_section(numbers: &[u32], flaw: Flaw) -> Option<(Settings, &[u32])> {
    let (&count, rest) = numbers.split_first()?;
    let six = || {
        let (&[n, q, w, k, a, l], rest) = rest.split_first_chunk::<6>()?;
        Some((Settings { n, q, w, k, a, l, b: 1 }, rest))
    };
    let seven = || {
        let (&[n, q, w, k, a, l, b], rest) = rest.split_first_chunk::<7>()?;
        Some((Settings { n, q, w, k, a, l, b }, rest))
    };
    match (count, flaw) {
        (6, Flaw::SixTakesSeven) => seven(),
        (7, Flaw::SevenRefused) => None,
        (7, Flaw::SevenTakesSix) => six(),
        (7, Flaw::BanksIgnored) => seven().map(|(s, rest)| (Settings { b: 1, ..s }, rest)),
        (7, Flaw::BanksFirst) => {
            let (&[b, n, q, w, k, a, l], rest) = rest.split_first_chunk::<7>()?;
            Some((Settings { n, q, w, k, a, l, b }, rest))
        }
        (8, Flaw::EightTaken) => seven().and_then(|(s, rest)| Some((s, rest.get(1..)?))),
        (6, _) => six(),
        (7, _) => seven(),
        (_, Flaw::FirstCountNotJudged) => six(),
        _ => None,
    }
}

/// The two sections: the settings, and the steps.
fn sections(numbers: &[u32], flaw: Flaw) -> Option<(Settings, Vec<u32>)> {
    if flaw == Flaw::OneNumberShort && numbers.len() > 8 + STEPS_MOST {
        return None;
    }
    let (settings, rest) = first_section(numbers, flaw)?;
    let Some((&count, steps)) = rest.split_first() else {
        return (flaw == Flaw::OneSectionTaken).then_some((settings, Vec::new()));
    };
    let most = match flaw {
        Flaw::SecondCountNotJudged => usize::MAX,
        Flaw::MostStepsRefused => STEPS_MOST - 1,
        _ => STEPS_MOST,
    };
    let wanted = count as usize;
    let fits = match flaw {
        Flaw::StepsMissingTaken => steps.len() <= wanted,
        Flaw::StepsBeyondTaken => steps.len() >= wanted,
        _ => steps.len() == wanted,
    };
    let steps = steps.get(..wanted.min(steps.len()))?.to_vec();
    (wanted <= most && fits).then_some((settings, steps))
}

/// The number by which the settings are refused. The engine judges them before it looks at what is lent, here nothing.
fn settings_number(s: &Settings, flaw: Flaw) -> Option<u32> {
    let product = u64::from(s.a) * (u64::from(s.k) + 1);
    if flaw == Flaw::TogetherBeforeRanges && u64::from(s.l) >= product {
        return Some(2);
    }
    let nothing = Memory {
        store: Vec::new(),
        forward: Vec::new(),
        reverse: Vec::new(),
        rows: Vec::new(),
        counts: Vec::new(),
        control: Control::default(),
    };
    match Model::new(nothing, flaw.below()).set_up(s) {
        Err(refusal @ (Refusal::Setting | Refusal::Together)) => Some(refusal.number()),
        _ => None,
    }
}

fn store_fits(s: &Settings, flaw: Flaw) -> bool {
    let rows = u64::from(s.n) + u64::from(s.q);
    let size = u128::from(rows) * u128::from(s.w);
    match flaw {
        Flaw::StoreOneMoreTaken => size <= u128::from(STORE_MOST) + 1,
        Flaw::FullStoreRefused => size < u128::from(STORE_MOST),
        Flaw::StoreSizeCutTo16Bits => size < 1 << 20 && size % (1 << 16) <= u128::from(STORE_MOST),
        _ => size <= u128::from(STORE_MOST),
    }
}

/// "K × B above 4,096 prints `trace refused`, judged with the store's size."
fn entries_fit(s: &Settings, flaw: Flaw) -> bool {
    let entries = u64::from(s.k) * u64::from(s.b);
    match flaw {
        Flaw::EntriesNotJudged => true,
        Flaw::EntriesTwoMoreTaken => entries <= ENTRIES_MOST + 2,
        Flaw::FullEntriesRefused => entries < ENTRIES_MOST,
        Flaw::EntriesCutTo16Bits => entries % (1 << 16) <= ENTRIES_MOST,
        _ => entries <= ENTRIES_MOST,
    }
}

/// What is too large, if anything.
fn too_large(s: &Settings, flaw: Flaw) -> Option<Verdict> {
    match (store_fits(s, flaw), entries_fit(s, flaw)) {
        (true, true) => None,
        (true, false) | (false, true) if flaw == Flaw::OneTooLargeTaken => None,
        (false, _) => Some(Verdict::Store),
        (true, false) => Some(Verdict::Entries),
    }
}

fn refused(verdict: Verdict) -> Printed {
    Printed { text: "trace refused\n".to_string(), verdict }
}

fn settings_refused(number: u32) -> Printed {
    Printed { text: format!("0 {number} - - -\n"), verdict: Verdict::Settings(number) }
}

/// The line of one step, without its number in the list.
fn line(text: &mut String, s: &Settings, row: u32, answer: &Result<Served, Refusal>, flaw: Flaw) {
    let none = if flaw == Flaw::NoneAsZero { "0" } else { "-" };
    let or_none = |n: Option<usize>| n.map_or(none.to_string(), |n| n.to_string());
    let _ = match answer {
        Ok(served) => {
            let shift = if flaw == Flaw::SlotAsPhysicalRow { s.n as usize } else { 0 };
            let slot = or_none(served.moved_to.map(|slot| slot + shift));
            writeln!(text, " 0 {} {slot} {}", served.place, or_none(served.sent_home))
        }
        Err(refusal) if flaw == Flaw::RefusalShowsPlace => writeln!(text, " {} {row} {none} {none}", refusal.number()),
        Err(refusal) => writeln!(text, " {} {none} {none} {none}", refusal.number()),
    };
}

fn run(s: &Settings, steps: &[u32], flaw: Flaw) -> Printed {
    let mut seen = Seen { banks: s.b, ..Seen::default() };
    let mut text = String::new();
    let mut engine = Model::new(Memory::raw(s, 0), flaw.below());
    if let Err(refusal) = engine.set_up(s) {
        return settings_refused(refusal.number());
    }
    let mut buffer = vec![0; s.w as usize];
    let from = if flaw == Flaw::StepFromZero { 0 } else { 1 };
    for (number, &step) in (from..).zip(steps) {
        let _ = write!(text, "{number}");
        if step == TICK && flaw != Flaw::TickPrintedAsRead {
            let ticked = if flaw == Flaw::TickNotMade { Ok(()) } else { engine.tick(s) };
            let none = if flaw == Flaw::NoneAsZero { "0" } else { "-" };
            let _ = writeln!(text, " {} {none} {none} {none}", ticked.err().map_or(0, Refusal::number));
            seen.ticks += 1;
            continue;
        }
        let row = if flaw == Flaw::RowsCutTo16Bits { step % (1 << 16) } else { step };
        let before = engine.memory.control;
        let answer = engine.read(s, row, &mut buffer);
        seen.read(s, row, &answer, &before, &engine.memory.control);
        line(&mut text, s, row, &answer, flaw);
    }
    Printed { text, verdict: Verdict::Ran(seen) }
}

/// A file without numbers is an empty trace.
fn is_empty(input: &[u8], numbers: &[u32], flaw: Flaw) -> bool {
    match flaw {
        Flaw::BlankFileRefused => false,
        Flaw::NoBytesAloneTaken => input.is_empty(),
        Flaw::ShortFileIsEmpty => numbers.len() < 8,
        _ => numbers.is_empty(),
    }
}

fn judge_form(input: &[u8], flaw: Flaw) -> Option<Form> {
    let most = match flaw {
        Flaw::LongFileTaken => FILE_MOST + 1,
        Flaw::FullFileRefused => FILE_MOST - 1,
        _ => FILE_MOST,
    };
    let input = if flaw == Flaw::LongFileCut { &input[..input.len().min(most)] } else { input };
    let too_long = input.len() > most;
    if too_long && flaw != Flaw::LongBlankFileTaken {
        return None;
    }
    let numbers = numbers(input, flaw)?;
    if is_empty(input, &numbers, flaw) {
        return Some(Form::Empty);
    }
    let (settings, steps) = sections(&numbers, flaw).filter(|_| !too_long)?;
    Some(Form::Trace(settings, steps))
}

/// What the trace program prints for a file.
pub fn interpret(input: &[u8], flaw: Flaw) -> Printed {
    let early = || first_section(&numbers(input, flaw)?, flaw).map(|(s, _)| s);
    if flaw == Flaw::SettingsBeforeForm {
        if let Some(number) = early().and_then(|s| settings_number(&s, flaw)) {
            return settings_refused(number);
        }
    }
    let (s, steps) = match judge_form(input, flaw) {
        None => return refused(Verdict::Form),
        Some(Form::Empty) if flaw == Flaw::EmptyTraceHasSettings => return settings_refused(1),
        Some(Form::Empty) => return Printed { text: String::new(), verdict: Verdict::Empty },
        Some(Form::Trace(s, steps)) => (s, steps),
    };
    let number = settings_number(&s, flaw);
    let refused_early = match flaw {
        Flaw::StoreBeforeSettings => !store_fits(&s, flaw),
        Flaw::EntriesBeforeSettings => !entries_fit(&s, flaw),
        Flaw::EntriesBeforeTogether => number != Some(1) && !entries_fit(&s, flaw),
        _ => false,
    };
    if refused_early {
        return refused(Verdict::Store);
    }
    if let Some(number) = number {
        let mut printed = settings_refused(number);
        if flaw == Flaw::RefusedSettingsGoOn {
            (1..=steps.len()).for_each(|at| printed.text += &format!("{at} {number} - - -\n"));
        }
        return printed;
    }
    match too_large(&s, flaw) {
        Some(Verdict::Entries) if flaw == Flaw::EntriesAsSettings => return settings_refused(1),
        Some(verdict) => return refused(verdict),
        None => {}
    }
    let mut printed = run(&s, &steps, flaw);
    if flaw == Flaw::NoLastNewline {
        printed.text.pop();
    }
    printed
}
