//! Long random programs. They are made of blocks that mostly do not halt:
//! arithmetic on a dozen registers, loads and stores, DOT, READ and WRITE,
//! screens, trees, skips, loops and routines; addresses are kept in range by
//! AND with a mask. Some have many RECPs, mostly of small operands, some many
//! shifts, mostly by less than 32. An outer loop repeats all of it, and what comes
//! after it halts, or is endless.

use super::case::{mixed_word, second_state, Case, FRESH};
use super::groups::in_parts;
use super::parts::{amount, any_word, screen_in, tree_on};
use super::reciprocals::{cut, LONG_RUN};
use crate::groups::{area, size};
use crate::random::sound_screen;
use crate::run::Run;
use kit::rng::Rng;
use kit::words::{fields, Program};
use merikohin::{Screen, State};
use second::machine::*;
use std::time::{Duration, Instant};

/// A program that has at least this many steps counts as long.
const LONG: u64 = 1_000;

// R1 to R12 hold anything. The others have one use each.
const FREE: (i64, i64) = (1, 12);
const FIRST: u32 = 13;
const SECOND: u32 = 14;
const THIRD: u32 = 15;
/// 0x3fc: with it, a start for DOT.
const DOT_MASK: u32 = 16;
/// 0x3f0: with it, a data address for READ and WRITE.
const DATA_MASK: u32 = 17;
/// With it, a RAM address for READ and WRITE.
const RAM_MASK: u32 = 18;
/// 0x3ff: with it, an address for LD and ST.
const WORD_MASK: u32 = 19;
/// Colour and depth start of two screens.
const SCREENS: [(u32, u32); 2] = [(20, 21), (22, 23)];
/// With them, a column and a row of the smaller screen.
const COLUMN_MASK: u32 = 24;
const ROW_MASK: u32 = 25;
/// The outer loop's count, and those of loops in it.
const OUTER: u32 = 26;
const COUNTS: [u32; 2] = [27, 28];
const ALL_LEAVES: u32 = 29;
/// 31: with it, an amount to shift by that leaves something.
const SHIFT_MASK: u32 = 30;

pub struct Long {
    pub case: Case,
}

/// What about every other plain block of a program is.
#[derive(Clone, Copy, PartialEq, Eq)]
pub enum Often {
    Nothing,
    Reciprocals,
    Shifts,
}

struct Maker<'a> {
    rng: &'a mut Rng,
    program: Program,
    screens: [Screen; 2],
    routines: Vec<usize>,
    /// About how many steps what has been added takes.
    steps: u64,
    /// How often one of the words is anything at all; 0 for never.
    danger: u64,
    often: Often,
}

impl Maker<'_> {
    fn free(&mut self) -> u32 {
        self.rng.between(FREE.0, FREE.1) as u32
    }

    /// A register to write to: mostly a free one, now and then R0.
    fn target(&mut self) -> u32 {
        if self.rng.chance(14) {
            0
        } else {
            self.free()
        }
    }

    /// A register to read: mostly a free one.
    fn source(&mut self) -> u32 {
        if self.rng.chance(8) {
            self.rng.between(0, 31) as u32
        } else {
            self.free()
        }
    }

    fn rrr(&mut self, opcode: u32, r1: u32, r2: u32, r3: u32) {
        // Bits that are not used are anything.
        let low = self.rng.next() as u32 & 0x7ff;
        self.program.add(kit::words::rrr(opcode, r1, r2, r3) | low);
        self.steps += 1;
    }

    fn rri(&mut self, opcode: u32, r1: u32, r2: u32, imm: i64) {
        self.program.rri(opcode, r1, r2, imm);
        self.steps += 1;
    }

    fn arithmetic(&mut self) {
        let (r1, r2, r3) = (self.target(), self.source(), self.source());
        let opcode = self.rng.between(i64::from(LI), i64::from(ASRI)) as u32;
        match opcode {
            LI => {
                let imm = self.rng.next() as i64;
                self.rri(opcode, r1, r2, imm);
            }
            LSL..=ASRI => self.shift(opcode, r1, r2, r3),
            _ => self.rrr(opcode, r1, r2, r3),
        }
    }

    /// A shift by imm, or by what r3 holds. Few registers hold less than 32, so
    /// mostly r3 is masked, and now and then a little is added to that.
    fn shift(&mut self, opcode: u32, r1: u32, r2: u32, r3: u32) {
        if opcode >= LSLI {
            let imm = amount(self.rng);
            return self.rri(opcode, r1, r2, i64::from(imm));
        }
        match self.rng.next() % 16 {
            0 => return self.rrr(opcode, r1, r2, r3),
            1 => {
                let by = amount(self.rng);
                self.rri(LI, FIRST, 0, i64::from(by));
            }
            2 => {
                // 0 to 31, and then up to 70.
                self.rrr(AND, FIRST, r3, SHIFT_MASK);
                let more = self.rng.between(1, 39);
                self.rri(LI, FIRST, FIRST, more);
            }
            _ => self.rrr(AND, FIRST, r3, SHIFT_MASK),
        }
        self.rrr(opcode, r1, r2, FIRST);
    }

    /// A shift of a register, or of a word of data memory.
    fn any_shift(&mut self) {
        let opcode = self.rng.between(i64::from(LSL), i64::from(ASRI)) as u32;
        let (r1, mut r2, r3) = (self.target(), self.source(), self.source());
        if self.rng.chance(2) {
            let address = self.rng.between(0, 1023);
            self.rri(LD, SECOND, 0, address);
            r2 = SECOND;
        }
        self.shift(opcode, r1, r2, r3);
    }

    /// RECP of an operand on either side of 0 and of 512, or of any.
    fn reciprocal(&mut self) {
        let (r1, from) = (self.target(), self.source());
        match self.rng.next() % 8 {
            // 0 to 1,023, and -512 to 511.
            0 | 1 => self.rri(LSRI, FIRST, from, 22),
            2 => self.rrr(AND, FIRST, from, WORD_MASK),
            3 | 4 => self.rri(ASRI, FIRST, from, 22),
            5 => {
                let operand = self.rng.between(-1100, 1100);
                self.rri(LI, FIRST, 0, operand);
            }
            6 => {
                let operand = self.rng.pick(&[0, 1, 2, 511, 512, 513, -1, -511, -512, -513]);
                self.rri(LI, FIRST, 0, operand);
            }
            _ => return self.rrr(RECP, r1, from, 0),
        }
        self.rrr(RECP, r1, FIRST, 0);
    }

    /// LD and ST, by R0 and imm or by a masked register.
    fn memory(&mut self) {
        let opcode = self.rng.pick(&[LD, LD, ST]);
        let r1 = if opcode == LD { self.target() } else { self.source() };
        let from = self.free();
        match self.rng.next() % 4 {
            0 => {
                let address = self.rng.between(0, 1023);
                self.rri(opcode, r1, 0, address);
            }
            1 => {
                self.rrr(AND, FIRST, from, WORD_MASK);
                self.rri(opcode, r1, FIRST, 0);
            }
            2 => {
                self.rrr(AND, FIRST, from, DOT_MASK);
                let more = self.rng.between(0, 3);
                self.rri(opcode, r1, FIRST, more);
            }
            _ => {
                self.rri(LSRI, FIRST, from, 23);
                let more = self.rng.between(0, 512);
                self.rri(opcode, r1, FIRST, more);
            }
        }
    }

    fn dot(&mut self) {
        let (r1, a, b) = (self.target(), self.free(), self.free());
        self.rrr(AND, FIRST, a, DOT_MASK);
        self.rrr(AND, SECOND, b, DOT_MASK);
        self.rrr(DOT, r1, FIRST, SECOND);
    }

    fn transfer(&mut self) {
        let opcode = self.rng.pick(&[READ, WRITE]);
        let (a, b) = (self.free(), self.free());
        self.rrr(AND, FIRST, a, DATA_MASK);
        self.rrr(AND, SECOND, b, RAM_MASK);
        self.rrr(opcode, FIRST, SECOND, 0);
    }

    fn screen(&mut self) {
        let which = self.rng.pick(&[0, 0, 1]);
        let (colour, depth) = SCREENS[which];
        self.rri(SCRSET, colour, depth, i64::from(self.screens[which].size_number));
    }

    fn clear(&mut self) {
        let (a, b) = (self.source(), self.source());
        // Mostly a far depth, so that what is drawn later is seen.
        if self.rng.chance(2) {
            self.rrr(CLS, a, ALL_LEAVES, 0);
        } else {
            self.rrr(CLS, a, b, 0);
        }
    }

    /// A value and a step for the leaves: free registers, or made small so that
    /// the sixteen values differ in sign.
    fn leaf_registers(&mut self) -> (u32, u32) {
        let (a, b) = (self.free(), self.free());
        match self.rng.next() % 4 {
            0 => (a, b),
            1 => (a, a),
            2 => {
                let shift = self.rng.between(20, 30);
                self.rri(ASRI, SECOND, a, shift);
                let step = self.rng.between(-90, 90);
                self.rri(LI, THIRD, 0, step);
                (SECOND, THIRD)
            }
            _ => {
                self.rri(LSRI, SECOND, a, 1);
                (SECOND, b)
            }
        }
    }

    fn tree(&mut self) {
        let (a, b) = (self.free(), self.free());
        self.rrr(AND, FIRST, a, COLUMN_MASK);
        self.rrr(AND, SECOND, b, ROW_MASK);
        let mask = if self.rng.chance(3) { self.free() } else { ALL_LEAVES };
        self.rrr(TREESET, FIRST, SECOND, mask);
        for _ in 0..self.rng.between(1, 6) {
            match self.rng.next() % 10 {
                0..=2 => {
                    let (value, step) = self.leaf_registers();
                    self.rrr(TREEIN, value, step, 0);
                }
                3..=7 => {
                    let (value, step) = self.leaf_registers();
                    let which = self.rng.between(0, 3);
                    self.rri(TREEVAL, value, step, which);
                }
                8 => self.rrr(TREEPUT, 0, 0, 0),
                _ => match self.rng.next() % 3 {
                    0 => self.clear(),
                    1 => self.transfer(),
                    _ => self.arithmetic(),
                },
            }
        }
        self.rrr(TREEPUT, 0, 0, 0);
    }

    /// A jump of any kind over a few words.
    fn skip(&mut self) {
        let end = self.program.mark();
        if self.rng.chance(3) {
            self.arithmetic();
        }
        let opcode = self.rng.between(i64::from(JMP), i64::from(JGEL)) as u32;
        let opcode = if opcode == CALL { JMP } else { opcode };
        self.program.jump(opcode, end);
        self.steps += 1;
        for _ in 0..self.rng.between(1, 3) {
            self.plain_block();
        }
        self.program.put(end);
    }

    /// A jump to a place in a register.
    fn far_jump(&mut self) {
        let more = self.rng.between(-20, 20);
        let target = self.program.here() as i64 + 3;
        self.rri(LI, FIRST, 0, target - more);
        self.rri(JMP, 7, FIRST, more);
        let word = any_word(self.rng);
        self.program.add(word);
    }

    fn call(&mut self) {
        let routine = self.rng.pick(&self.routines);
        self.program.jump(CALL, routine);
        self.steps += 12;
    }

    fn plain_block(&mut self) {
        if self.danger > 0 && self.rng.chance(self.danger) {
            let word = any_word(self.rng);
            self.program.add(word);
        }
        match self.often {
            Often::Reciprocals if self.rng.chance(2) => return self.reciprocal(),
            Often::Shifts if self.rng.chance(2) => return self.any_shift(),
            _ => {}
        }
        match self.rng.next() % 16 {
            0..=6 => self.arithmetic(),
            7..=9 => self.memory(),
            10 | 11 => self.dot(),
            12 => self.transfer(),
            13 => match self.rng.next() % 3 {
                0 => self.screen(),
                1 => self.clear(),
                _ => self.far_jump(),
            },
            _ => self.tree(),
        }
    }

    fn block(&mut self, level: usize) {
        match self.rng.next() % 12 {
            0 | 1 => self.skip(),
            2 if level < COUNTS.len() => {
                let count = COUNTS[level];
                let times = self.rng.between(1, 4);
                self.rri(LI, count, 0, times);
                let (start, before) = (self.program.mark(), self.steps);
                self.program.put(start);
                for _ in 0..self.rng.between(1, 4) {
                    self.block(level + 1);
                }
                self.rri(LI, count, count, -1);
                let opcode = self.rng.pick(&[JNE, JNEL, JGT, JGTL]);
                self.program.jump(opcode, start);
                self.steps += (self.steps - before) * (times as u64 - 1) + times as u64;
            }
            3 => self.call(),
            _ => self.plain_block(),
        }
    }

    /// A word that halts, each halt number there is; or an endless loop.
    fn last_words(&mut self) {
        match self.rng.next() % 12 {
            0 => self.program.add((41 << 26) | self.rng.next() as u32 & 0x03ff_ffff),
            1 => self.rri(LD, 1, 0, 1024),
            2 => self.rri(ST, 1, 0, -1),
            3 => {
                self.rri(LI, FIRST, 0, 1021);
                self.rrr(DOT, 1, 0, FIRST);
            }
            4 => {
                self.rri(LI, FIRST, 0, 1009);
                self.rrr(READ, FIRST, 0, 0);
            }
            5 => {
                self.rri(LI, FIRST, 0, 2);
                self.rrr(WRITE, 0, FIRST, 0);
            }
            6 => self.rri(SCRSET, 0, 0, 513),
            7 => self.rri(TREEVAL, 1, 2, 4),
            8 => self.rrr(TREESET, ALL_LEAVES, 0, 0),
            9 => self.rri(JMP, 0, 0, -1),
            _ => {
                // Round and round, with something to do.
                let start = self.program.mark();
                self.program.put(start);
                for _ in 0..self.rng.between(1, 6) {
                    self.plain_block();
                }
                self.program.jump(JMP, start);
            }
        }
    }
}

/// One program with its first state and memories; one in four has many RECPs, one
/// in eight many shifts.
pub fn program(rng: &mut Rng) -> Long {
    let often = match rng.next() % 8 {
        0 | 1 => Often::Reciprocals,
        2 => Often::Shifts,
        _ => Often::Nothing,
    };
    made(rng, often)
}

fn made(rng: &mut Rng, often: Often) -> Long {
    // Two screens, the second at least as large as the first.
    let (groups, height) = (rng.pick(&[1u32, 1, 2, 4]), rng.pick(&[1u32, 2, 4, 4, 8]));
    let first = size(groups, height);
    let second =
        if rng.chance(2) { first } else { size(groups + rng.between(0, 1) as u32, height + rng.between(0, 3) as u32) };
    let ram = 2 * area(second) as usize + rng.pick(&[0usize, 1, 2, 63, 64, 200, 700]);
    let screens = [sound_screen(rng, first, ram), sound_screen(rng, second, ram)];
    let reach = (ram as u32 - 60).next_power_of_two();
    let reach = if reach > ram as u32 - 60 { reach / 2 } else { reach };

    let mut constants = vec![
        (DOT_MASK, 0x3fc),
        (DATA_MASK, 0x3f0),
        (RAM_MASK, (reach - 1) & !3),
        (WORD_MASK, 0x3ff),
        (COLUMN_MASK, (groups - 1) * 16),
        (ROW_MASK, height - 1),
        (ALL_LEAVES, u32::MAX),
        (SHIFT_MASK, 31),
    ];
    for (screen, (colour, depth)) in screens.iter().zip(SCREENS) {
        constants.extend([(colour, screen.colour_start), (depth, screen.depth_start)]);
    }

    // In half of them one instruction among a few hundred is anything at all.
    let danger = if rng.chance(2) { rng.pick(&[100, 300]) } else { 0 };
    let target = rng.between(1_100, 2_400) as u64;
    let words_at_most = rng.pick(&[60usize, 120, 120, 250, 900]);
    let fresh = rng.chance(2);
    let mut maker = Maker { rng, program: Program::default(), screens, routines: Vec::new(), steps: 0, danger, often };
    let mut state = FRESH;
    if fresh {
        // The constants by LI, the free registers by LD and by what they meet.
        for &(register, value) in &constants {
            maker.rri(LI, register, 0, i64::from(value));
        }
        for register in FREE.0..=FREE.1 {
            let address = maker.rng.between(0, 1023);
            maker.rri(LD, register as u32, 0, address);
        }
        maker.rri(SCRSET, SCREENS[0].0, SCREENS[0].1, i64::from(first));
        maker.rrr(TREESET, 0, 0, ALL_LEAVES);
    } else {
        (FREE.0..=FREE.1).for_each(|register| state.registers[register as usize] = mixed_word(maker.rng));
        constants.iter().for_each(|&(register, value)| state.registers[register as usize] = value);
        let screen = screens[0];
        let tree = tree_on(maker.rng, screen);
        state = State { has_screen: 1, screen, has_tree: 1, tree, ..state };
    }
    maker.routines = (0..maker.rng.between(1, 3)).map(|_| maker.program.mark()).collect();

    // The outer loop; its count is set when it is known.
    let count_at = maker.program.here();
    maker.rri(LI, OUTER, 0, 0);
    let start = maker.program.mark();
    maker.program.put(start);
    let before = maker.steps;
    while maker.program.here() < words_at_most {
        maker.block(0);
    }
    maker.rri(LI, OUTER, OUTER, -1);
    maker.program.jump(JNE, start);
    let once = (maker.steps - before).max(1);
    let times = target / once + 1;
    maker.program.words[count_at] |= times as u32 & 0x7fff;
    maker.last_words();
    let end = maker.program.mark();
    maker.program.jump(JMP, end);
    for routine in maker.routines.clone() {
        maker.program.put(routine);
        for _ in 0..maker.rng.between(1, 4) {
            maker.plain_block();
        }
        maker.rri(JMP, 0, 31, 0);
    }
    let rng = maker.rng;
    let words = maker.program.done();

    // In one run or a few; some go on to the halt, others stop before it.
    let total = if rng.chance(3) { rng.between(LONG as i64, target as i64 + 200) as u64 } else { 2 * target + 2_000 };
    let mut runs = Vec::new();
    let mut left = total;
    for _ in 1..rng.pick(&[1, 1, 2, 4]) {
        let part = rng.pick(&[0, 1, 100, LONG_RUN - 1, LONG_RUN, left / 2]).min(left);
        runs.push(part);
        left -= part;
    }
    runs.push(left);
    let mut case = Case::one(words, ram, rng.next(), state, 0);
    case.runs = runs;
    Long { case }
}

/// What was carried out, step by step on the second program.
pub struct Profile {
    by_opcode: [u64; 41],
    /// RECP of each operand of 02's table, in a long run.
    by_operand: [u64; 512],
    /// Shifts by less than 32, by 32 to 70, by more.
    by_amount: [u64; 3],
    /// Results put in R1 to R12, and those that are neither 0 nor -1.
    words: u64,
    rich: u64,
}

impl Profile {
    pub fn none() -> Profile {
        Profile { by_opcode: [0; 41], by_operand: [0; 512], by_amount: [0; 3], words: 0, rich: 0 }
    }

    pub fn add(&mut self, case: &Case) {
        let (mut data, mut ram) = (Vec::new(), Vec::new());
        case.data_at_first(&mut data);
        case.ram_at_first(&mut ram);
        let mut state = second_state(&case.state);
        for &allowed in &case.runs {
            for _ in 0..allowed {
                let Some(&word) = case.program.get(state.place as usize) else { return };
                let (opcode, r1, r2, r3, imm) = fields(word);
                let (operand, by_register) = (state.registers[r2], state.registers[r3]);
                let ran = second::machine::run(&case.program, &mut data, &mut ram, &state, 1);
                if ran.steps == 0 {
                    return;
                }
                self.by_opcode[opcode as usize] += 1;
                if opcode == RECP && allowed >= LONG_RUN && (1..=512).contains(&operand) {
                    self.by_operand[operand as usize - 1] += 1;
                }
                if (LSL..=ASRI).contains(&opcode) {
                    let amount = if opcode >= LSLI { imm } else { by_register };
                    self.by_amount[usize::from(amount >= 32) + usize::from(amount > 70)] += 1;
                }
                let free = (FREE.0..=FREE.1).contains(&(r1 as i64));
                if free && ((LD..=ASRI).contains(&opcode) && opcode != ST || opcode == DOT) {
                    self.words += 1;
                    self.rich += u64::from(!matches!(ran.state.registers[r1], 0 | u32::MAX));
                }
                state = ran.state;
            }
        }
    }

    fn share(&self, opcodes: &[u32]) -> String {
        let of = opcodes.iter().map(|&opcode| self.by_opcode[opcode as usize]).sum::<u64>();
        percent(of, self.by_opcode.iter().sum())
    }

    pub fn reciprocals(&self) -> String {
        let met = self.by_operand.iter().filter(|&&times| times > 0).count();
        let times = self.by_operand.iter().sum::<u64>();
        format!("{} RECP; in long runs {times} times of 1 to 512, of {met} of them", self.share(&[RECP]))
    }

    pub fn shifts(&self) -> String {
        let all = self.by_amount.iter().sum();
        let [below, close, far] = self.by_amount.map(|times| percent(times, all));
        format!(
            "{} shifts, {below} of them by less than 32, {close} by 32 to 70, {far} by more; \
             {} of the results in R1 to R12 neither 0 nor -1",
            self.share(&(LSL..=ASRI).collect::<Vec<u32>>()),
            percent(self.rich, self.words)
        )
    }
}

fn percent(of: u64, all: u64) -> String {
    let all = all.max(1);
    format!("{}.{}%", of * 100 / all, of * 1000 / all % 10)
}

/// Programs that often have something, in one run and in parts on both sides of
/// `LONG_RUN`; some by all their single steps. Hands back the profile of the first
/// hundred.
pub fn cut_programs(run: &mut Run, rng: &mut Rng, often: Often) -> Profile {
    let mut profile = Profile::none();
    for turn in 0..1000 {
        let whole = made(rng, often).case;
        let total = rng.between(800, 4 * LONG_RUN as i64) as u64;
        let any = rng.between(1, total as i64) as u64;
        let sizes = [(); 3].map(|()| rng.pick(&[1, 100, LONG_RUN - 1, LONG_RUN, LONG_RUN + 1, any]));
        let one = Case { runs: vec![total], ..whole };
        if turn < 100 && !run.quiet {
            profile.add(&one);
        }
        in_parts(run, &one, total, cut(total, &sizes));
        if turn % 5 == 0 {
            run.machine(&Case { singly: total, ..one });
        }
    }
    profile
}

/// At least the asked number of programs of 1,000 steps or more, for at least
/// the asked minutes.
pub fn programs(run: &mut Run, rng: &mut Rng) {
    let start = Instant::now();
    let least = Duration::from_secs(60 * run.minutes);
    let (mut long, mut short, mut steps) = (0u64, 0u64, 0u64);
    let mut by_halt = [0u64; 18];
    let mut profile = Profile::none();
    while long < run.programs || start.elapsed() < least {
        let Long { case } = program(rng);
        debug_assert!(case.program.len() <= 1024 && screen_in(rng, case.ram).is_some());
        if long < 200 && !run.quiet {
            profile.add(&case);
        }
        let Some(answers) = run.machine(&case) else {
            // A mismatch counts as well, or a wrong subject would never end.
            long += 1;
            continue;
        };
        let done: u64 = answers.iter().map(|ran| ran.steps).sum();
        if done < LONG {
            short += 1;
            continue;
        }
        long += 1;
        steps += done;
        by_halt[(answers[answers.len() - 1].state.halt as usize).min(17)] += 1;
    }
    let tree = profile.share(&[TREESET, TREEIN, TREEVAL, TREEPUT]);
    let jumps = profile.share(&(JMP..=JGEL).collect::<Vec<u32>>());
    let halts: Vec<String> = (11..18).map(|halt| format!("{} with {halt}", by_halt[halt])).collect();
    run.note(format!(
        "{long} of {LONG} steps or more, {steps} steps; {} ended with their steps, the others halted: {}; {short} shorter ones besides. \
         Steps of the first 200: {tree} in a tree, {jumps} jumps, {} LD or ST, {} READ or WRITE, {} DOT, {}, {}; \
         the rarest opcode {} times",
        by_halt[0],
        halts.join(", "),
        profile.share(&[LD, ST]),
        profile.share(&[READ, WRITE]),
        profile.share(&[DOT]),
        profile.reciprocals(),
        profile.shifts(),
        profile.by_opcode.iter().min().copied().unwrap_or(0)
    ));
}
