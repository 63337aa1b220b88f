//! Runs a case on the subject and on the second program, each with a RAM of its
//! own, and compares number, count and every byte. The subject draws it twice, as
//! C has the call and then as Rust has it: the second time nothing more changes.

use super::case::Case;
use crate::case::second_screen;
use crate::check::Memories;
use crate::subject::{Subject, Way};
use merikohin::raw::Panelled;
use second::panel::Input;

/// Samples on both sides of those that are lent, as far as an offset and a column
/// reach. They are as loud as there are, so one that is read too many shows.
const AROUND: usize = 2048 + 64;
const LOUD: [i16; 2] = [i16::MAX, i16::MIN];

/// The samples as they are lent, kept from case to case.
#[derive(Default)]
pub struct Lent {
    all: Vec<i16>,
    place: std::ops::Range<usize>,
}

impl Lent {
    fn prepare(&mut self, samples: &[i16], lead: usize) {
        let start = AROUND + lead;
        self.place = start..start + samples.len();
        self.all.clear();
        self.all.extend(LOUD.iter().cycle().take(start));
        self.all.extend(samples);
        self.all.extend(LOUD.iter().cycle().take(AROUND));
    }

    fn samples(&self) -> &[i16] {
        &self.all[self.place.clone()]
    }
}

/// The case as the second program has it.
pub fn second_input<'a>(case: &Case, samples: &'a [i16]) -> Input<'a> {
    Input { samples, n: case.per_column, d: case.offset, colour: case.colour }
}

/// An answer of the second program in the engine's words.
pub fn seen(second::panel::Panelled { number, pixels }: second::panel::Panelled) -> Panelled {
    Panelled { number, pixels }
}

/// The subject's first answer, and in words how it, the second one or a byte
/// differs from the second program's.
pub fn check(subject: Subject, case: &Case, memories: &mut Memories, lent: &mut Lent) -> (Panelled, Option<String>) {
    memories.prepare(case.ram, case.lead, case.fill);
    let samples = case.samples();
    lent.prepare(&samples, case.lead);
    let input = second_input(case, &samples);
    let expected = seen(second::panel::panel(&mut memories.second, second_screen(case.screen), &input));
    let name = subject.name();
    let mut first = None;
    for way in [Way::C, Way::Rust] {
        let answer = subject.panel(way, memories.subject_ram_lent(), lent.samples(), case);
        let first = *first.get_or_insert(answer);
        let mut bytes = memories.difference(name, case.screen);
        if lent.samples() != samples {
            bytes += &format!("  {name} changed a sample\n");
        }
        if answer != expected || !bytes.is_empty() {
            let (seen, wanted) = (in_words(&answer), in_words(&expected));
            let text = format!("  {name}, {}: {seen}\n  second: {wanted}\n{bytes}", way.words());
            return (first, Some(text));
        }
    }
    (expected, None)
}

fn in_words(answer: &Panelled) -> String {
    format!("number {}, pixels {}", answer.number, answer.pixels)
}
