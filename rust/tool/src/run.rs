//! Runs a program: whole, or step by step with a trace.

use crate::asm::{assemble, Assembled};
use crate::files::{self, Output};
use crate::problem::{self, Place, Problem};
use crate::terminal::Progress;
use kit::words::{fields, numbered, Told};
use merikohin::{Halt, Refusal, State};

pub struct Asked {
    pub file: String,
    pub steps: u64,
    pub ram: Option<String>,
    pub trace: bool,
    pub output: Option<Output>,
}

/// Steps between two looks at the progress. A run of m and then n steps ends as
/// one of m + n does, with the counts added, so a run may be cut anywhere; and a
/// run is single steps in turn.
const SLICE: u64 = 2_000_000;

/// A machine in the middle of its work.
struct Machine {
    program: Assembled,
    memory: Vec<u32>,
    ram: Vec<u8>,
    state: State,
    steps: u64,
}

impl Machine {
    fn run(&mut self, budget: u64) -> Result<(), Problem> {
        let ran = merikohin::run(&self.program.words, &mut self.memory, &mut self.ram, self.state, budget);
        let ran = ran.map_err(|refusal| self.refused(refusal))?;
        self.state = ran.state;
        self.steps += ran.steps;
        Ok(())
    }

    fn step(&mut self) -> Result<(), Problem> {
        let stepped = merikohin::step(&self.program.words, &mut self.memory, &mut self.ram, self.state);
        let stepped = stepped.map_err(|refusal| self.refused(refusal))?;
        self.state = stepped.state;
        self.steps += u64::from(stepped.carried_out);
        Ok(())
    }

    fn refused(&self, refusal: Refusal) -> Problem {
        let value = match refusal {
            Refusal::ProgramTooLong => format!("{} words", self.program.words.len()),
            Refusal::RamTooLong => format!("{} bytes", self.ram.len()),
            _ => String::new(),
        };
        Problem::refused(refusal, value)
    }
}

/// A program's words from a file of either kind.
pub fn program(file: &str) -> Result<Assembled, Problem> {
    match files::suffix(file) {
        "s" => assemble(file, &files::read_text(file)?),
        "bin" => {
            let words = files::words_of(file, &files::read(file)?)?;
            Ok(Assembled { words, lines: Vec::new() })
        }
        _ => Err(Problem::new(problem::SUFFIX, ".s or .bin is wanted").at(Place::file(file))),
    }
}

/// Whether the program came to a halt.
pub fn run(asked: &Asked) -> Result<bool, Problem> {
    let ram = match &asked.ram {
        Some(file) => files::read(file)?,
        None => vec![0; merikohin::RAM_MOST],
    };
    let memory = vec![0; merikohin::MEMORY_WORDS];
    let mut machine = Machine { program: program(&asked.file)?, memory, ram, state: merikohin::fresh(), steps: 0 };
    let done = if asked.trace { traced(&mut machine, asked.steps) } else { whole(&mut machine, asked.steps) };
    done.map_err(|problem| problem.at(Place::file(&asked.file)))?;
    println!("{}", told(&machine));
    if let Some(output) = &asked.output {
        output.write(&machine.ram, machine.state.screen())?;
    }
    match machine.state.halted() {
        None => Ok(false),
        Some(Halt::Place) => Ok(true),
        Some(halt) => Err(halted(&machine, halt, &asked.file)),
    }
}

fn whole(machine: &mut Machine, steps: u64) -> Result<(), Problem> {
    let mut progress = Progress::new();
    let slice = if progress.shown() { SLICE } else { u64::MAX };
    loop {
        let before = machine.steps;
        machine.run(slice.min(steps - machine.steps))?;
        if machine.state.halt != 0 || machine.steps == steps || machine.steps == before {
            return Ok(());
        }
        progress.say(&format!("{} steps", machine.steps));
    }
}

fn halted(machine: &Machine, halt: Halt, file: &str) -> Problem {
    let place = machine.state.place as usize;
    let word = machine.program.words.get(place).copied().unwrap_or(0);
    let line = machine.program.lines.get(place).copied();
    let value = format!("{} at place {place}", Told(word));
    Problem::new(halt.number(), value).at(Place { file: file.into(), line })
}

/// The state at the end: steps, place, halt, what is not 0.
fn told(machine: &Machine) -> String {
    let state = &machine.state;
    let steps = if machine.steps == 1 { "step" } else { "steps" };
    let mut text = format!("{} {steps}, place {}, halt {}", machine.steps, state.place, state.halt);
    for (name, set) in [("negative", state.negative), ("zero", state.zero)] {
        if set != 0 {
            text += &format!(", {name}");
        }
    }
    for (k, value) in state.registers.iter().enumerate().filter(|(_, value)| **value != 0) {
        text += &format!("\nR{k} = {value:08x} ({})", *value as i32);
    }
    if let Some(screen) = state.screen() {
        text += &format!("\n{}", screen_told(screen));
    }
    text
}

fn screen_told(screen: merikohin::Screen) -> String {
    let (width, height) = (screen.width(), screen.height());
    format!("screen {width} by {height}, colours at {}, depths at {}", screen.colour_start, screen.depth_start)
}

/// One step at a time; each is printed with what it changed.
fn traced(machine: &mut Machine, steps: u64) -> Result<(), Problem> {
    while machine.state.halt == 0 && machine.steps < steps {
        let place = machine.state.place as usize;
        let word = machine.program.words.get(place).copied();
        let draws = word.map_or(false, |word| ["WRITE", "CLS", "TREEPUT"].contains(&name_of(word)));
        let before = (machine.state, machine.memory.clone(), if draws { machine.ram.clone() } else { Vec::new() });
        machine.step()?;
        let mut changed = state_changes(&before.0, &machine.state);
        changed.extend(memory_changes(&before.1, &machine.memory));
        if draws {
            changed.extend(ram_changes(&before.2, &machine.ram));
        }
        let (word, text) =
            word.map_or((String::new(), String::new()), |word| (format!("{word:08x}"), Told(word).to_string()));
        println!("{place:4}  {word:8}  {text:24}  {}", changed.join(", "));
    }
    Ok(())
}

fn name_of(word: u32) -> &'static str {
    numbered(fields(word).0).map_or("", |opcode| opcode.name)
}

fn state_changes(before: &State, after: &State) -> Vec<String> {
    let mut found = Vec::new();
    for (k, value) in after.registers.iter().enumerate().filter(|(k, value)| before.registers[*k] != **value) {
        found.push(format!("R{k} = {value:08x}"));
    }
    for (name, was, is) in [("negative", before.negative, after.negative), ("zero", before.zero, after.zero)] {
        if was != is {
            found.push(format!("{name} = {is}"));
        }
    }
    if after.halt != before.halt {
        found.push(format!("halt {}", after.halt));
    } else if after.place != before.place + 1 {
        found.push(format!("to {}", after.place));
    }
    if after.screen() != before.screen() {
        found.extend(after.screen().map(screen_told));
    }
    match (before.tree(), after.tree()) {
        (was, Some(tree)) if was != Some(tree) => found.push(tree_told(&tree)),
        (Some(_), None) => found.push("no tree".into()),
        _ => {}
    }
    found
}

/// The leaves that TREEPUT would write, a digit each.
fn tree_told(tree: &merikohin::Tree) -> String {
    let enabled = (0..16).map(|k| if tree.inside[k] != 0 || tree.outside[k] == 0 { '1' } else { '0' });
    format!("tree at ({}, {}), leaves {}", tree.column, tree.row, enabled.collect::<String>())
}

fn memory_changes(before: &[u32], after: &[u32]) -> Vec<String> {
    let places = (0..after.len()).filter(|&at| before[at] != after[at]);
    places.map(|at| format!("data {at} = {:08x}", after[at])).collect()
}

fn ram_changes(before: &[u8], after: &[u8]) -> Option<String> {
    let places: Vec<usize> = (0..after.len()).filter(|&at| before[at] != after[at]).collect();
    let (first, last) = (places.first()?, places.last()?);
    Some(format!("{} bytes of RAM from {first} to {last}", places.len()))
}
