//! Runs a case on the subject and on the second program, each with memories of
//! its own, and compares number, steps, state, every word of data memory and
//! every byte of RAM after every run; then the same by single steps.

use super::case::{plain_state, plainly_answered, second_state, Case};
use crate::subject::Subject;
use kit::words::Told;
use merikohin::raw::Ran;
use merikohin::State;
use std::ops::Range;

/// Words and bytes kept on both sides of what is lent to the subject; they must
/// never change.
const GUARD_WORDS: usize = 64;
const GUARD_WORD: u32 = 0xa5a5_5a5a;
const GUARD_BYTES: usize = 256;
const GUARD_BYTE: u8 = 0xa5;

pub struct Difference {
    /// The place of the differing run in the case.
    pub run: usize,
    pub text: String,
}

pub struct Checked {
    /// The subject's answers, up to and with a differing run.
    pub answers: Vec<Ran>,
    /// Comparisons of single steps.
    pub steps: u64,
    pub difference: Option<Difference>,
}

/// Something lent, between two guards.
struct Lent<T> {
    whole: Vec<T>,
    place: Range<usize>,
    guard: T,
}

impl<T: Copy + PartialEq> Lent<T> {
    fn new(guard: T) -> Lent<T> {
        Lent { whole: Vec::new(), place: 0..0, guard }
    }

    fn prepare(&mut self, content: &[T], before: usize, after: usize) {
        let end = before + content.len();
        self.place = before..end;
        self.whole.resize(end + after, self.guard);
        self.whole[..before].fill(self.guard);
        self.whole[before..end].copy_from_slice(content);
        self.whole[end..].fill(self.guard);
    }

    fn lent(&mut self) -> &mut [T] {
        &mut self.whole[self.place.clone()]
    }

    fn seen(&self) -> &[T] {
        &self.whole[self.place.clone()]
    }

    fn guards_kept(&self) -> bool {
        let kept = |part: &[T]| part.iter().all(|&value| value == self.guard);
        kept(&self.whole[..self.place.start]) && kept(&self.whole[self.place.end..])
    }
}

/// The subject's memories, and the second program's.
struct Both {
    program: Lent<u32>,
    data: Lent<u32>,
    ram: Lent<u8>,
    second_data: Vec<u32>,
    second_ram: Vec<u8>,
}

impl Default for Both {
    fn default() -> Both {
        Both {
            program: Lent::new(GUARD_WORD),
            data: Lent::new(GUARD_WORD),
            ram: Lent::new(GUARD_BYTE),
            second_data: Vec::new(),
            second_ram: Vec::new(),
        }
    }
}

impl Both {
    fn prepare(&mut self, case: &Case) {
        case.data_at_first(&mut self.second_data);
        case.ram_at_first(&mut self.second_ram);
        self.program.prepare(&case.program, GUARD_WORDS, GUARD_WORDS);
        self.data.prepare(&self.second_data, GUARD_WORDS, GUARD_WORDS);
        self.ram.prepare(&self.second_ram, GUARD_BYTES + case.lead, GUARD_BYTES);
    }
}

/// The memories, kept from case to case: of its runs, and of its single steps.
#[derive(Default)]
pub struct Memories {
    runs: Both,
    steps: Both,
}

impl Memories {
    /// The subject's data memory after the last case's runs.
    pub fn subject_data(&self) -> &[u32] {
        self.runs.data.seen()
    }

    /// The subject's RAM after the last case's runs.
    pub fn subject_ram(&self) -> &[u8] {
        self.runs.ram.seen()
    }
}

/// What a run or a step answered: its number, the steps carried out, the state.
struct Outcome<S> {
    number: u32,
    steps: u64,
    state: S,
}

pub fn check(subject: Subject, case: &Case, memories: &mut Memories) -> Checked {
    let mut checked = check_runs(subject, case, &mut memories.runs);
    if checked.difference.is_none() {
        check_steps(subject, case, memories, &mut checked);
    }
    checked
}

fn check_runs(subject: Subject, case: &Case, both: &mut Both) -> Checked {
    both.prepare(case);
    let mut answers = Vec::with_capacity(case.runs.len());
    let (mut state, mut expected_state) = (case.state, second_state(&case.state));
    for (run, &steps) in case.runs.iter().enumerate() {
        let (data, ram) = (&mut both.second_data, &mut both.second_ram);
        let expected = second::machine::run(&case.program, data, ram, &expected_state, steps);
        let seen = subject.run(both.program.seen(), both.data.lent(), both.ram.lent(), state, steps);
        answers.push(seen);

        let told = Outcome { number: seen.number, steps: seen.steps, state: seen.state };
        let wanted = Outcome { number: expected.number, steps: expected.steps, state: expected.state };
        let mut text = differences(subject.name(), case, both, &state, &told, &wanted, true);
        if !text.is_empty() {
            if let Some(&word) = case.program.get(expected_state.place as usize) {
                text += &format!("  the run's first word is {word:08x}: {}\n", Told(word));
            }
            return Checked { answers, steps: 0, difference: Some(Difference { run, text }) };
        }
        state = seen.state;
        expected_state = expected.state;
    }
    Checked { answers, steps: 0, difference: None }
}

/// A RAM longer than this is compared after the last single step alone.
const SHORT_RAM: usize = 65_536;

/// The same by single steps, each from where the last stopped. Where they are as
/// many as the runs allow, they must end as the runs did.
fn check_steps(subject: Subject, case: &Case, memories: &mut Memories, checked: &mut Checked) {
    let Memories { runs, steps: both } = memories;
    both.prepare(case);
    let allowed = case.runs.iter().fold(0u64, |sum, &steps| sum.saturating_add(steps));
    let steps = allowed.clamp(1, case.singly.max(1));
    let (mut state, mut expected_state) = (case.state, second_state(&case.state));
    let (mut number, mut carried_out) = (0, 0);
    for step in 1..=steps {
        let (data, ram) = (&mut both.second_data, &mut both.second_ram);
        let expected = second::machine::step(&case.program, data, ram, &expected_state);
        let seen = subject.step(both.program.seen(), both.data.lent(), both.ram.lent(), state);
        checked.steps += 1;

        let told = Outcome { number: seen.number, steps: u64::from(seen.carried_out), state: seen.state };
        let wanted = Outcome { number: expected.number, steps: u64::from(expected.carried_out), state: expected.state };
        let whole = case.ram <= SHORT_RAM || step == steps;
        let text = differences(subject.name(), case, both, &state, &told, &wanted, whole);
        if !text.is_empty() {
            let text = format!("  single step {step} of {steps}:\n{text}");
            checked.difference = Some(Difference { run: 0, text });
            return;
        }
        state = seen.state;
        expected_state = expected.state;
        number = seen.number;
        carried_out += told.steps;
    }
    if steps == allowed {
        checked.steps += 1;
        let last = checked.answers[checked.answers.len() - 1];
        let answers = last.number == number && last.state.same_fields(&state);
        let counts = checked.answers.iter().map(|ran| ran.steps).sum::<u64>() == carried_out;
        if !(answers && counts && runs.data.seen() == both.data.seen() && runs.ram.seen() == both.ram.seen()) {
            let text = format!("  {steps} single steps, {carried_out} carried out, end otherwise than the runs\n");
            checked.difference = Some(Difference { run: 0, text });
        }
    }
}

/// In words, all that differs after a call from the state given; the RAM only
/// where it is to be compared whole.
fn differences(
    name: &str,
    case: &Case,
    both: &Both,
    given: &State,
    seen: &Outcome<State>,
    expected: &Outcome<second::machine::State>,
    whole: bool,
) -> String {
    let mut text = String::new();
    if (seen.number, seen.steps) != (expected.number, expected.steps) {
        text += &format!(
            "  {name}: number {}, steps {}\n  second: number {}, steps {}\n",
            seen.number, seen.steps, expected.number, expected.steps
        );
    }
    if second_state(&seen.state) != expected.state {
        text += &states_in_words(name, &seen.state, &plain_state(&expected.state));
    }
    if seen.number != 0 && !seen.state.same_fields(given) {
        text += &format!("  {name} refused the state, and answers not as it was given: {:?}\n", seen.state);
    }
    if seen.number == 0 && !plainly_answered(&seen.state) {
        text += &format!("  {name} answers a yes or no that is neither 0 nor 1: {:?}\n", seen.state);
    }
    if both.data.seen() != both.second_data {
        text += &places_in_words("words of data memory", name, both.data.seen(), &both.second_data);
    }
    if whole && both.ram.seen() != both.second_ram {
        text += &places_in_words("bytes of RAM", name, both.ram.seen(), &both.second_ram);
    }
    if both.program.seen() != case.program {
        text += &format!("  {name} changed the program\n");
    }
    if !(both.program.guards_kept() && both.data.guards_kept() && both.ram.guards_kept()) {
        text += &format!("  {name} changed something outside the memories it was lent\n");
    }
    text
}

fn states_in_words(name: &str, seen: &State, second: &State) -> String {
    let mut text = String::new();
    let mut say = |what: String, a: u32, b: u32| {
        if a != b {
            text += &format!("  {what}: {name} {a} ({a:x}), second {b} ({b:x})\n");
        }
    };
    for k in 0..32 {
        say(format!("R{k}"), seen.registers[k], second.registers[k]);
    }
    say("place".into(), seen.place, second.place);
    say("negative".into(), seen.negative, second.negative);
    say("zero".into(), seen.zero, second.zero);
    say("halt".into(), seen.halt, second.halt);
    say("has_screen".into(), seen.has_screen, second.has_screen);
    if second.has_screen != 0 {
        say("the screen's colour start".into(), seen.screen.colour_start, second.screen.colour_start);
        say("the screen's depth start".into(), seen.screen.depth_start, second.screen.depth_start);
        say("the screen's size number".into(), seen.screen.size_number, second.screen.size_number);
    }
    say("has_tree".into(), seen.has_tree, second.has_tree);
    if second.has_tree != 0 {
        let (a, b) = (&seen.tree, &second.tree);
        say("the tree's column".into(), a.column, b.column);
        say("the tree's row".into(), a.row, b.row);
        say("has_depth".into(), a.has_depth, b.has_depth);
        for k in 0..16 {
            say(format!("leaf {k}'s mark I"), a.inside[k].into(), b.inside[k].into());
            say(format!("leaf {k}'s mark O"), a.outside[k].into(), b.outside[k].into());
            say(format!("leaf {k}'s colour"), a.colour[k].into(), b.colour[k].into());
            if second.tree.has_depth != 0 {
                say(format!("leaf {k}'s depth"), a.depth[k].into(), b.depth[k].into());
            }
        }
    }
    text
}

fn places_in_words<T: PartialEq + std::fmt::LowerHex>(what: &str, name: &str, seen: &[T], second: &[T]) -> String {
    let different: Vec<usize> = (0..second.len()).filter(|&at| seen[at] != second[at]).collect();
    let at = different[0];
    format!("  {} {what} differ, the first at {at}: {name} {:x}, second {:x}\n", different.len(), seen[at], second[at])
}
