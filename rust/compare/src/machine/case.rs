//! A case of the machine: a program, what data memory and RAM hold at first, a
//! state, and runs made one after the other, each from where the last stopped;
//! the same is then done by single steps. Every case has a text form that
//! `--case` reads back.

use crate::case::{numbers, second_screen, Fill};
use kit::rng::Rng;
use merikohin::{Screen, State, Tree};
use second::machine::{Leaf, DATA_WORDS};
use std::collections::BTreeMap;
use std::fmt;

/// Words at the edges of the machine's rules.
pub const EXTREMES: [u32; 40] = [
    0,
    1,
    2,
    3,
    4,
    15,
    16,
    17,
    31,
    32,
    33,
    1008,
    1009,
    1020,
    1021,
    1023,
    1024,
    32767,
    32768,
    65534,
    65535,
    65536,
    65537,
    1 << 20,
    1 << 21,
    1 << 22,
    0x7fff_0000,
    0x7fff_fffe,
    0x7fff_ffff,
    0x8000_0000,
    0x8000_0001,
    0x8000_ffff,
    0xffff_0000,
    0xffff_0001,
    0xffff_7fff,
    0xffff_8000,
    0xffff_fff0,
    0xffff_fffd,
    0xffff_fffe,
    0xffff_ffff,
];

/// A word: an edge, a small number, a number with 16 bits of fraction, or any.
pub fn mixed_word(rng: &mut Rng) -> u32 {
    let n = rng.next();
    let any = (n >> 32) as u32;
    let edge = EXTREMES[(u64::from(any) * EXTREMES.len() as u64 >> 32) as usize];
    [edge, (any % 128).wrapping_sub(64), (any % (512 << 16)).wrapping_sub(256 << 16), any][(n % 4) as usize]
}

/// What data memory holds at first.
#[derive(Clone, Copy, Debug, PartialEq, Eq)]
pub enum DataFill {
    /// Words that follow from a seed: edges, small numbers, any.
    Mixed(u64),
    /// The same word everywhere.
    Word(u32),
}

impl DataFill {
    pub fn apply(self, data: &mut [u32]) {
        match self {
            DataFill::Word(word) => data.fill(word),
            DataFill::Mixed(seed) => {
                let mut rng = Rng::new(seed);
                data.iter_mut().for_each(|word| *word = mixed_word(&mut rng));
            }
        }
    }
}

#[derive(Clone, Debug, PartialEq, Eq)]
pub struct Case {
    pub program: Vec<u32>,
    /// Data memory's length in words.
    pub data: usize,
    pub data_fill: DataFill,
    /// Words of data memory that are not as the fill has them.
    pub words: BTreeMap<usize, u32>,
    /// RAM length in bytes.
    pub ram: usize,
    /// How far the RAM is moved from its usual address, to meet every
    /// alignment.
    pub lead: usize,
    pub fill: Fill,
    /// Bytes of RAM that are not as the fill has them.
    pub bytes: BTreeMap<usize, u8>,
    pub state: State,
    /// The steps each run allows.
    pub runs: Vec<u64>,
    /// The most single steps that are taken: as many as the runs allow, and one
    /// where they allow none.
    pub singly: u64,
}

const SINGLY: u64 = 64;

impl Case {
    /// A program run once from a state.
    pub fn one(program: Vec<u32>, ram: usize, fill: u64, state: State, steps: u64) -> Case {
        Case {
            program,
            data: DATA_WORDS,
            data_fill: DataFill::Mixed(fill),
            words: BTreeMap::new(),
            ram,
            lead: (fill % 16) as usize,
            fill: Fill::Random(fill),
            bytes: BTreeMap::new(),
            state,
            runs: vec![steps],
            singly: SINGLY,
        }
    }

    /// Words of data memory from a place on.
    pub fn with_words(mut self, at: usize, words: &[u32]) -> Case {
        self.words.extend(words.iter().enumerate().map(|(k, &word)| (at + k, word)));
        self
    }

    pub fn data_at_first(&self, data: &mut Vec<u32>) {
        data.resize(self.data, 0);
        self.data_fill.apply(data);
        self.words.iter().filter(|(&at, _)| at < self.data).for_each(|(&at, &word)| data[at] = word);
    }

    pub fn ram_at_first(&self, ram: &mut Vec<u8>) {
        ram.resize(self.ram, 0);
        self.fill.apply(ram);
        self.bytes.iter().filter(|(&at, _)| at < self.ram).for_each(|(&at, &byte)| ram[at] = byte);
    }
}

// ---------------------------------------------------------------------------
// States, and the same in the second program's words.
// ---------------------------------------------------------------------------

pub const NO_SCREEN: Screen = Screen { colour_start: 0, depth_start: 0, size_number: 0 };

pub const NO_TREE: Tree =
    Tree { column: 0, row: 0, inside: [0; 16], outside: [0; 16], colour: [0; 16], depth: [0; 16], has_depth: 0 };

/// 01, Halts: "A fresh state has place 0, registers 0, flags clear, no screen,
/// no tree, halt 0."
pub const FRESH: State = State {
    registers: [0; 32],
    place: 0,
    negative: 0,
    zero: 0,
    halt: 0,
    has_screen: 0,
    screen: NO_SCREEN,
    has_tree: 0,
    tree: NO_TREE,
};

/// A fresh state but for some registers.
pub fn with_regs(set: &[(u32, u32)]) -> State {
    let mut state = FRESH;
    set.iter().filter(|(register, _)| *register != 0).for_each(|&(register, value)| {
        state.registers[register as usize] = value;
    });
    state
}

pub fn with_screen(state: State, screen: Screen) -> State {
    State { has_screen: 1, screen, ..state }
}

pub fn with_tree(state: State, tree: Tree) -> State {
    State { has_tree: 1, tree, ..state }
}

/// What a state means: 0 is no and anything else yes; a screen, a tree and a
/// depth only where there is one.
pub fn second_state(s: &State) -> second::machine::State {
    let leaf = |k: usize| Leaf {
        inside: s.tree.inside[k] != 0,
        outside: s.tree.outside[k] != 0,
        colour: s.tree.colour[k],
        depth: (s.tree.has_depth != 0).then_some(s.tree.depth[k]),
    };
    let tree = second::machine::Tree { column: s.tree.column, row: s.tree.row, leaves: std::array::from_fn(leaf) };
    second::machine::State {
        registers: s.registers,
        place: s.place,
        negative: s.negative != 0,
        zero: s.zero != 0,
        screen: (s.has_screen != 0).then_some(second_screen(s.screen)),
        tree: (s.has_tree != 0).then_some(tree),
        halt: s.halt,
    }
}

/// The same as the C interface has it; what means nothing is 0.
pub fn plain_state(s: &second::machine::State) -> State {
    let mut state = State {
        registers: s.registers,
        place: s.place,
        negative: u32::from(s.negative),
        zero: u32::from(s.zero),
        halt: s.halt,
        ..FRESH
    };
    if let Some(screen) = s.screen {
        let screen = Screen {
            colour_start: screen.colour_start,
            depth_start: screen.depth_start,
            size_number: screen.size_number,
        };
        state = with_screen(state, screen);
    }
    if let Some(tree) = s.tree {
        state = with_tree(
            state,
            Tree {
                column: tree.column,
                row: tree.row,
                inside: tree.leaves.map(|leaf| u8::from(leaf.inside)),
                outside: tree.leaves.map(|leaf| u8::from(leaf.outside)),
                colour: tree.leaves.map(|leaf| leaf.colour),
                depth: tree.leaves.map(|leaf| leaf.depth.unwrap_or(0)),
                has_depth: u32::from(tree.leaves[0].depth.is_some()),
            },
        );
    }
    state
}

/// Whether every yes and no of a state that a run led to is 1 or 0.
pub fn plainly_answered(s: &State) -> bool {
    let flags = [s.negative, s.zero, s.has_screen, s.has_tree].iter().all(|&n| n <= 1);
    let marks = s.tree.inside.iter().chain(&s.tree.outside).all(|&n| n <= 1) && s.tree.has_depth <= 1;
    flags && (s.has_tree == 0 || marks)
}

// ---------------------------------------------------------------------------
// Text form.
// ---------------------------------------------------------------------------

/// Runs of places that follow one another.
fn runs_of<T: Copy>(map: &BTreeMap<usize, T>) -> Vec<(usize, Vec<T>)> {
    let mut found: Vec<(usize, Vec<T>)> = Vec::new();
    for (&at, &value) in map {
        match found.last_mut() {
            Some((start, run)) if *start + run.len() == at => run.push(value),
            _ => found.push((at, vec![value])),
        }
    }
    found
}

fn list<T: fmt::Display>(values: &[T]) -> String {
    values.iter().map(T::to_string).collect::<Vec<_>>().join(",")
}

impl fmt::Display for Case {
    fn fmt(&self, f: &mut fmt::Formatter<'_>) -> fmt::Result {
        write!(f, "machine program=")?;
        let mut rest = &self.program[..];
        while let Some(&word) = rest.first() {
            let same = rest.iter().take_while(|&&other| other == word).count();
            let comma = if rest.len() == self.program.len() { "" } else { "," };
            let times = if same > 1 { format!("*{same}") } else { String::new() };
            write!(f, "{comma}{word:08x}{times}")?;
            rest = &rest[same..];
        }
        if self.data != DATA_WORDS {
            write!(f, " data={}", self.data)?;
        }
        match self.data_fill {
            DataFill::Mixed(seed) => write!(f, " words=mixed:{seed}")?,
            DataFill::Word(word) => write!(f, " words=word:{word}")?,
        }
        for (at, words) in runs_of(&self.words) {
            let words: Vec<String> = words.iter().map(|word| format!("{word:08x}")).collect();
            write!(f, " set={at}:{}", words.join(","))?;
        }
        write!(f, " ram={}", self.ram)?;
        if self.lead != 0 {
            write!(f, " lead={}", self.lead)?;
        }
        write!(f, " fill={}", self.fill)?;
        for (at, bytes) in runs_of(&self.bytes) {
            let bytes: String = bytes.iter().map(|byte| format!("{byte:02x}")).collect();
            write!(f, " put={at}:{bytes}")?;
        }
        let s = &self.state;
        for (k, value) in s.registers.iter().enumerate().filter(|(_, value)| **value != 0) {
            write!(f, " R{k}={value:x}")?;
        }
        let named = [
            ("place", s.place),
            ("negative", s.negative),
            ("zero", s.zero),
            ("halt", s.halt),
            ("has_screen", s.has_screen),
            ("has_tree", s.has_tree),
        ];
        for (name, value) in named.iter().filter(|(_, value)| *value != 0) {
            write!(f, " {name}={value}")?;
        }
        if s.screen != NO_SCREEN {
            write!(f, " screen={},{},{}", s.screen.colour_start, s.screen.depth_start, s.screen.size_number)?;
        }
        let t = &s.tree;
        if [t.column, t.row, t.has_depth] != [0; 3] {
            write!(f, " tree={},{},{}", t.column, t.row, t.has_depth)?;
        }
        for (name, marks) in [("inside", t.inside), ("outside", t.outside)] {
            if marks != [0; 16] {
                write!(f, " {name}={}", list(&marks))?;
            }
        }
        for (name, halves) in [("colour", t.colour), ("depth", t.depth)] {
            if halves != [0; 16] {
                write!(f, " {name}={}", list(&halves))?;
            }
        }
        if self.singly != SINGLY {
            write!(f, " singly={}", self.singly)?;
        }
        self.runs.iter().try_for_each(|steps| write!(f, "; run={steps}"))
    }
}

fn hex(text: &str) -> Result<u32, String> {
    u32::from_str_radix(text, 16).map_err(|_| format!("not a hexadecimal word: {text}"))
}

fn sixteen<T: std::str::FromStr + Copy>(text: &str) -> Result<[T; 16], String> {
    let found = numbers::<T>(text, 16)?;
    Ok(std::array::from_fn(|k| found[k]))
}

fn placed(text: &str) -> Result<(usize, &str), String> {
    let (at, rest) = text.split_once(':').ok_or(format!("PLACE:VALUES wanted: {text}"))?;
    Ok((numbers(at, 1)?[0], rest))
}

impl std::str::FromStr for Case {
    type Err = String;

    fn from_str(text: &str) -> Result<Case, String> {
        let mut case = Case::one(Vec::new(), 0, 0, FRESH, 0);
        case.data_fill = DataFill::Word(0);
        case.fill = Fill::Byte(0);
        case.runs.clear();
        let rest = text.strip_prefix("machine").ok_or("a machine case begins with: machine")?;
        for word in rest.split([' ', ';', '\n']).filter(|word| !word.is_empty()) {
            let (name, value) = word.split_once('=').ok_or(format!("name=value wanted: {word}"))?;
            let number = || numbers::<u32>(value, 1).map(|found| found[0]);
            let s = &mut case.state;
            match name {
                "program" => {
                    for part in value.split(',').filter(|part| !part.is_empty()) {
                        let (word, times) = part.split_once('*').unwrap_or((part, "1"));
                        let times = numbers::<usize>(times, 1)?[0];
                        case.program.extend(std::iter::repeat_n(hex(word)?, times));
                    }
                }
                "data" => case.data = numbers(value, 1)?[0],
                "words" => {
                    case.data_fill = match value.split_once(':') {
                        Some(("mixed", seed)) => DataFill::Mixed(numbers(seed, 1)?[0]),
                        Some(("word", word)) => DataFill::Word(numbers(word, 1)?[0]),
                        _ => return Err(format!("words is mixed:N or word:N: {value}")),
                    }
                }
                "set" => {
                    let (at, words) = placed(value)?;
                    for (k, word) in words.split(',').enumerate() {
                        case.words.insert(at + k, hex(word)?);
                    }
                }
                "ram" => case.ram = numbers(value, 1)?[0],
                "lead" => case.lead = numbers(value, 1)?[0],
                "fill" => case.fill = value.parse()?,
                "put" => {
                    let (at, bytes) = placed(value)?;
                    for k in 0..bytes.len() / 2 {
                        let pair = bytes.get(2 * k..2 * k + 2).ok_or(format!("not hexadecimal: {bytes}"))?;
                        case.bytes.insert(at + k, hex(pair)? as u8);
                    }
                }
                "place" => s.place = number()?,
                "negative" => s.negative = number()?,
                "zero" => s.zero = number()?,
                "halt" => s.halt = number()?,
                "has_screen" => s.has_screen = number()?,
                "has_tree" => s.has_tree = number()?,
                "screen" => {
                    let n = numbers::<u32>(value, 3)?;
                    s.screen = Screen { colour_start: n[0], depth_start: n[1], size_number: n[2] };
                }
                "tree" => {
                    let n = numbers::<u32>(value, 3)?;
                    (s.tree.column, s.tree.row, s.tree.has_depth) = (n[0], n[1], n[2]);
                }
                "inside" => s.tree.inside = sixteen(value)?,
                "outside" => s.tree.outside = sixteen(value)?,
                "colour" => s.tree.colour = sixteen(value)?,
                "depth" => s.tree.depth = sixteen(value)?,
                "singly" => case.singly = numbers(value, 1)?[0],
                "run" => case.runs.push(numbers(value, 1)?[0]),
                _ => match name.strip_prefix('R').and_then(|k| k.parse::<usize>().ok()) {
                    Some(k) if k < 32 => s.registers[k] = hex(value)?,
                    _ => return Err(format!("unknown: {word}")),
                },
            }
        }
        if case.runs.is_empty() {
            return Err("a machine case needs a run".to_string());
        }
        Ok(case)
    }
}
