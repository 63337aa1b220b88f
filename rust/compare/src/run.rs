//! Counts comparisons and mismatches, group by group, and reports them.

use crate::case::Case;
use crate::check::{check, Answer, Memories};
use crate::machine;
use crate::panel;
use crate::shrink::shrink;
use crate::subject::Subject;
use crate::through;
use kit::rng::Rng;
use merikohin::raw::{Panelled, Ran};
use merikohin::Plane;
use std::fmt::Display;

pub struct Run {
    pub subject: Subject,
    pub seed: u64,
    /// Calls the group of random calls makes at least.
    pub calls: u64,
    /// Requests the group of random planes makes at least.
    pub requests: u64,
    /// Panels the group of random panels draws at least.
    pub panels: u64,
    /// Programs of 1,000 steps or more the group of long random programs runs
    /// at least.
    pub programs: u64,
    /// Minutes the group of random calls takes at least, and the groups of random
    /// planes, of random panels and of long random programs.
    pub minutes: u64,
    /// Print each case before it is run.
    pub trace: bool,
    /// Print neither group lines nor mismatches, and end with the first group that has one.
    pub quiet: bool,
    /// Mismatches shown in full in each group.
    pub shown_at_most: u64,
    pub memories: Memories,
    pub samples: panel::check::Lent,
    pub machine_memories: machine::check::Memories,
    pub comparisons: u64,
    pub mismatches: u64,
    /// Names of the groups in which something mismatched.
    pub caught_by: Vec<String>,
    group: String,
    shown: u64,
    note: String,
}

impl Run {
    pub fn new(subject: Subject, seed: u64) -> Run {
        Run {
            subject,
            seed,
            calls: 100_000,
            requests: 400_000,
            panels: 30_000,
            programs: 10_000,
            minutes: 0,
            trace: false,
            quiet: false,
            shown_at_most: 3,
            memories: Memories::default(),
            samples: panel::check::Lent::default(),
            machine_memories: machine::check::Memories::default(),
            comparisons: 0,
            mismatches: 0,
            caught_by: Vec::new(),
            group: String::new(),
            shown: 0,
            note: String::new(),
        }
    }

    /// Runs one group and prints its line.
    pub fn group(&mut self, name: &str, body: impl FnOnce(&mut Run, &mut Rng)) {
        if self.quiet && self.mismatches > 0 {
            return;
        }
        let before = (self.comparisons, self.mismatches);
        self.group = name.to_string();
        self.shown = 0;
        self.note.clear();
        let mut rng = Rng::for_group(self.seed, name);
        body(self, &mut rng);
        let compared = self.comparisons - before.0;
        let mismatched = self.mismatches - before.1;
        if mismatched > 0 {
            self.caught_by.push(name.to_string());
        }
        if !self.quiet {
            let note = if self.note.is_empty() { String::new() } else { format!(" ({})", self.note) };
            println!("{name}: {compared} comparisons, {mismatched} mismatches{note}");
        }
    }

    /// Words added to the group's line.
    pub fn note(&mut self, note: String) {
        self.note = note;
    }

    /// Runs a case; every call in it is one comparison. Hands back the
    /// subject's answers if none differed.
    pub fn case(&mut self, case: &Case) -> Option<Vec<Answer>> {
        if self.trace {
            eprintln!("{case}");
        }
        let checked = check(self.subject, case, &mut self.memories);
        self.comparisons += checked.answers.len() as u64;
        match checked.difference {
            None => Some(checked.answers),
            Some(difference) => {
                if self.mismatch() {
                    let smallest = shrink(self.subject, case, &mut self.memories);
                    let again = check(self.subject, &smallest, &mut self.memories).difference;
                    let (step, text) = again.map_or((difference.step, difference.text), |d| (d.step, d.text));
                    let place = format!(", call {} of {}", step + 1, smallest.steps.len());
                    self.tell(case, &smallest, &place, &text);
                }
                None
            }
        }
    }

    /// Runs a case and also wants what its last call answers: a number, and
    /// the count of covered pixels where one is given.
    pub fn case_wants(&mut self, case: &Case, number: u32, covered: Option<u32>, written: Option<u32>) {
        let Some(answers) = self.case(case) else { return };
        let last = answers[answers.len() - 1];
        let holds = last.number == number
            && covered.is_none_or(|count| last.covered == count)
            && written.is_none_or(|count| last.written == count);
        let option = self.subject.option();
        self.holds(holds, || {
            format!(
                "wanted number {number}, covered {covered:?}, written {written:?}; answered {}, {}, {}\n  compare{option} --case '{case}'",
                last.number, last.covered, last.written
            )
        });
    }

    /// Asks for the plane through three values, which is one comparison. Hands
    /// back the subject's answer, the number and the plane, if it did not differ.
    pub fn through(&mut self, case: &through::case::Case) -> Option<(u32, Plane)> {
        if self.trace {
            eprintln!("{case}");
        }
        let (seen, difference) = through::case::check(self.subject, case);
        self.comparisons += 1;
        match difference {
            None => Some((seen.number, seen.plane)),
            Some(text) => {
                if self.mismatch() {
                    let smallest = through::shrink(self.subject, case);
                    let text = through::case::check(self.subject, &smallest).1.unwrap_or(text);
                    self.tell(case, &smallest, "", &text);
                }
                None
            }
        }
    }

    /// Asks for a plane and also wants its number, and the plane where one is
    /// given; refused, one of zeros. Hands the plane back if nothing differed.
    pub fn through_wants(&mut self, case: &through::case::Case, number: u32, plane: Option<[i32; 3]>) -> Option<Plane> {
        let (seen, answer) = self.through(case)?;
        let three = [answer.c, answer.a, answer.b];
        let plane = if number == 0 { plane } else { Some([0; 3]) };
        let holds = seen == number && plane.unwrap_or(three) == three;
        let option = self.subject.option();
        self.holds(holds, || {
            format!("wanted number {number}, c, a, b {plane:?}; answered {seen}, {three:?}\n  compare{option} --case '{case}'")
        });
        holds.then_some(answer)
    }

    /// Draws a panel twice, which is two comparisons. Hands back the subject's
    /// answer if nothing differed.
    pub fn panel(&mut self, case: &panel::case::Case) -> Option<Panelled> {
        if self.trace {
            eprintln!("{case}");
        }
        let (seen, difference) = panel::check::check(self.subject, case, &mut self.memories, &mut self.samples);
        self.comparisons += 2;
        match difference {
            None => Some(seen),
            Some(text) => {
                if self.mismatch() {
                    let smallest = panel::shrink(self.subject, case, &mut self.memories, &mut self.samples);
                    let again = panel::check::check(self.subject, &smallest, &mut self.memories, &mut self.samples);
                    self.tell(case, &smallest, "", &again.1.unwrap_or(text));
                }
                None
            }
        }
    }

    /// Draws a panel and also wants its number, and the count of its pixels where
    /// one is given; refused, one of 0. Tells whether nothing differed.
    pub fn panel_wants(&mut self, case: &panel::case::Case, number: u32, pixels: Option<u32>) -> bool {
        let Some(seen) = self.panel(case) else { return false };
        let pixels = if number == 0 { pixels } else { Some(0) };
        let holds = seen.number == number && pixels.unwrap_or(seen.pixels) == seen.pixels;
        let option = self.subject.option();
        self.holds(holds, || {
            format!(
                "wanted number {number}, pixels {pixels:?}; answered {}, {}\n  compare{option} --case '{case}'",
                seen.number, seen.pixels
            )
        });
        holds
    }

    /// Runs a case of the machine; every run in it is one comparison, and every
    /// single step. Hands back the subject's answers if none differed.
    pub fn machine(&mut self, case: &machine::case::Case) -> Option<Vec<Ran>> {
        if self.trace {
            eprintln!("{case}");
        }
        let checked = machine::check::check(self.subject, case, &mut self.machine_memories);
        self.comparisons += checked.answers.len() as u64 + checked.steps;
        match checked.difference {
            None => Some(checked.answers),
            Some(difference) => {
                if self.mismatch() {
                    let smallest = machine::shrink(self.subject, case, &mut self.machine_memories);
                    let again = machine::check::check(self.subject, &smallest, &mut self.machine_memories).difference;
                    let (run, text) = again.map_or((difference.run, difference.text), |d| (d.run, d.text));
                    let place = format!(", run {} of {}", run + 1, smallest.runs.len());
                    self.tell(case, &smallest, &place, &text);
                }
                None
            }
        }
    }

    /// Runs a case of the machine and also wants what its last run answers: a
    /// number, and the steps and the halt number where they are given. Hands
    /// back that answer if nothing differed.
    pub fn machine_wants(
        &mut self,
        case: &machine::case::Case,
        number: u32,
        steps: Option<u64>,
        halt: Option<u32>,
    ) -> Option<Ran> {
        let answers = self.machine(case)?;
        let last = answers[answers.len() - 1];
        let holds = last.number == number
            && steps.is_none_or(|steps| last.steps == steps)
            && halt.is_none_or(|halt| last.state.halt == halt);
        let option = self.subject.option();
        self.holds(holds, || {
            format!(
                "wanted number {number}, steps {steps:?}, halt {halt:?}; answered {}, {}, {}\n  compare{option} --case '{case}'",
                last.number, last.steps, last.state.halt
            )
        });
        holds.then_some(last)
    }

    /// One more comparison: something the documents say outright.
    pub fn holds(&mut self, holds: bool, words: impl FnOnce() -> String) {
        self.comparisons += 1;
        if !holds && self.mismatch() {
            println!("mismatch in \"{}\", seed {}:", self.group, self.seed);
            println!("  {}", words());
        }
    }

    /// Shows a case that mismatched, the smallest one found from it, and how that
    /// one differs.
    fn tell(&self, case: &impl Display, smallest: &impl Display, place: &str, text: &str) {
        let option = self.subject.option();
        println!("mismatch in \"{}\", seed {}, found with:", self.group, self.seed);
        println!("  compare{option} --case '{case}'");
        println!("the smallest found{place}:");
        println!("  compare{option} --case '{smallest}'");
        print!("{text}");
    }

    /// Counts a mismatch; tells whether to show it.
    fn mismatch(&mut self) -> bool {
        self.mismatches += 1;
        self.shown += 1;
        !self.quiet && self.shown <= self.shown_at_most
    }
}
