//! Runs a case on the subject and on the second program, each with a RAM of
//! its own, and compares number, counts, row part and every byte after every
//! call.

use crate::case::{second_screen, second_triangle, Call, Case, Fill, Step};
use crate::subject::{second_row, RowSeen, Subject};
use merikohin::Screen;

/// Bytes kept on both sides of the subject's RAM; they must never change.
const GUARD: usize = 256;
const GUARD_BYTE: u8 = 0xa5;

/// What one call answered. A clear has counts of 0, and a part only rows have.
#[derive(Clone, Copy, Debug, PartialEq, Eq)]
pub struct Answer {
    pub number: u32,
    pub covered: u32,
    pub written: u32,
    pub row: Option<RowSeen>,
}

pub struct Difference {
    /// The place of the differing call in the case.
    pub step: usize,
    pub text: String,
}

pub struct Checked {
    /// The subject's answers, up to and with a differing call.
    pub answers: Vec<Answer>,
    pub difference: Option<Difference>,
}

/// The two memories, kept from case to case.
#[derive(Default)]
pub struct Memories {
    subject: Vec<u8>,
    pub second: Vec<u8>,
    place: std::ops::Range<usize>,
}

impl Memories {
    /// The subject's RAM after the last case.
    pub fn subject_ram(&self) -> &[u8] {
        &self.subject[self.place.clone()]
    }

    /// The same to write to.
    pub fn subject_ram_lent(&mut self) -> &mut [u8] {
        &mut self.subject[self.place.clone()]
    }

    /// Two RAMs this long, with the same bytes.
    pub fn prepare(&mut self, ram: usize, lead: usize, fill: Fill) {
        self.second.resize(ram, 0);
        fill.apply(&mut self.second);
        let start = GUARD + lead;
        let end = start + ram;
        self.place = start..end;
        self.subject.resize(end + GUARD, 0);
        self.subject[..start].fill(GUARD_BYTE);
        self.subject[start..end].copy_from_slice(&self.second);
        self.subject[end..].fill(GUARD_BYTE);
    }

    fn guards_kept(&self) -> bool {
        let kept = |bytes: &[u8]| bytes.iter().all(|&byte| byte == GUARD_BYTE);
        kept(&self.subject[..self.place.start]) && kept(&self.subject[self.place.end..])
    }

    /// In words how the subject's bytes differ from the second program's; empty
    /// if they do not.
    pub fn difference(&self, name: &str, screen: Screen) -> String {
        let mut text = String::new();
        if self.subject_ram() != self.second {
            text += &bytes_in_words(name, screen, self.subject_ram(), &self.second);
        }
        if !self.guards_kept() {
            text += &format!("  {name} changed a byte outside the RAM it was lent\n");
        }
        text
    }
}

pub fn check(subject: Subject, case: &Case, memories: &mut Memories) -> Checked {
    memories.prepare(case.ram, case.lead, case.fill);
    let mut answers = Vec::with_capacity(case.steps.len());
    for (place, step) in case.steps.iter().enumerate() {
        let expected = second_answer(step, &mut memories.second);
        let seen = subject_answer(subject, step, memories.subject_ram_lent());
        answers.push(seen);

        let name = subject.name();
        let bytes = memories.difference(name, step.screen);
        if seen != expected || !bytes.is_empty() {
            let text = format!("  {name}: {}\n  second: {}\n{bytes}", in_words(&seen), in_words(&expected));
            return Checked { answers, difference: Some(Difference { step: place, text }) };
        }
    }
    Checked { answers, difference: None }
}

fn subject_answer(subject: Subject, step: &Step, ram: &mut [u8]) -> Answer {
    let none = Answer { number: 0, covered: 0, written: 0, row: None };
    match step.call {
        Call::Clear { colour, depth } => Answer { number: subject.clear(ram, step.screen, colour, depth), ..none },
        Call::Draw(t) => {
            let drawn = subject.draw(ram, step.screen, t);
            Answer { number: drawn.number, covered: drawn.covered, written: drawn.written, ..none }
        }
        Call::RowCheck { row } => Answer { number: subject.row_check(ram, step.screen, row), ..none },
        Call::Row { area, row } => {
            let seen = subject.row(ram, step.screen, area, row);
            Answer { number: seen.number, row: Some(seen), ..none }
        }
    }
}

fn second_answer(step: &Step, ram: &mut [u8]) -> Answer {
    let none = Answer { number: 0, covered: 0, written: 0, row: None };
    let screen = second_screen(step.screen);
    match step.call {
        Call::Clear { colour, depth } => Answer { number: second::clear(ram, screen, colour, depth), ..none },
        Call::Draw(t) => {
            let drawn = second::draw(ram, screen, &second_triangle(&t));
            Answer { number: drawn.number, covered: drawn.covered, written: drawn.written, ..none }
        }
        Call::RowCheck { row } => Answer { number: second::row_check(ram, screen, row), ..none },
        Call::Row { area, row } => {
            let seen = second_row(ram, screen, area, row);
            Answer { number: seen.number, row: Some(seen), ..none }
        }
    }
}

fn in_words(answer: &Answer) -> String {
    match answer.row {
        None => format!("number {}, covered {}, written {}", answer.number, answer.covered, answer.written),
        Some(row) => {
            let slice = match row.part {
                Some((start, length)) => format!("the slice begins {start} bytes into RAM and has {length}"),
                None => "no slice of RAM".to_string(),
            };
            format!("number {}, start {}, length {}; {slice}", row.number, row.start, row.length)
        }
    }
}

fn bytes_in_words(name: &str, lent: Screen, subject: &[u8], second: &[u8]) -> String {
    let different: Vec<usize> = (0..second.len()).filter(|&at| subject[at] != second[at]).collect();
    let at = different[0];
    let screen = second_screen(lent);
    let mut what = "outside the screen";
    let mut pixel = String::new();
    if second::sound(second.len(), screen) {
        for (area, start) in [("colour", lent.colour_start), ("depth", lent.depth_start)] {
            let into = at as i128 - i128::from(start);
            if into >= 0 && into < screen.area_bytes() {
                what = area;
                let (x, y) = (into / 2 % screen.width(), into / 2 / screen.width());
                pixel = format!(" of pixel ({x}, {y})");
            }
        }
    }
    format!(
        "  {} bytes of RAM differ, the first at {at} ({what}{pixel}): {name} {}, second {}\n",
        different.len(),
        subject[at],
        second[at]
    )
}
