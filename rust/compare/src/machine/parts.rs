//! Random registers, screens, trees, states and single instructions.

use super::case::{mixed_word, with_screen, with_tree, EXTREMES, FRESH};
use crate::groups::area;
use crate::random::{random_size, sound_screen};
use kit::rng::Rng;
use kit::words::fields;
use merikohin::{Screen, State, Tree};
use second::machine::{ASR, ASRI, DOT, JGEL, JMP, LD, LI, LSL, LSLI, READ, SCRSET, ST, TREESET, TREEVAL, WRITE};

/// A register's number: often R0, one of a few, or R31.
pub fn register(rng: &mut Rng) -> u32 {
    match rng.next() % 4 {
        0 => rng.pick(&[0, 0, 1, 31]),
        1 | 2 => rng.between(1, 4) as u32,
        _ => rng.between(0, 31) as u32,
    }
}

/// A yes in one of the forms it may be given in.
pub fn yes(rng: &mut Rng) -> u32 {
    rng.pick(&[1, 1, 1, 2, 255, 256, 65536, 1 << 31, u32::MAX])
}

pub fn mark(rng: &mut Rng) -> u8 {
    rng.pick(&[0, 0, 1, 1, 2, 128, 255])
}

/// An amount to shift by: mostly below 32, where something is left, some close
/// above, and some any.
pub fn amount(rng: &mut Rng) -> u32 {
    match rng.next() % 16 {
        0 => rng.between(32, 70) as u32,
        1 => mixed_word(rng),
        _ => rng.between(0, 31) as u32,
    }
}

/// A sound screen in a RAM this long, if one is found.
pub fn screen_in(rng: &mut Rng, ram: usize) -> Option<Screen> {
    for _ in 0..20 {
        let size = random_size(rng);
        if 2 * area(size) as usize <= ram {
            return Some(sound_screen(rng, size, ram));
        }
    }
    (ram >= 64).then(|| sound_screen(rng, 513, ram))
}

/// A column and row TREESET takes.
pub fn place_on(rng: &mut Rng, screen: Screen) -> (u32, u32) {
    let (groups, height) = (i64::from(screen.size_number / 512), i64::from(screen.size_number % 512));
    (16 * rng.between(0, groups - 1) as u32, rng.between(0, height - 1) as u32)
}

/// A tree on a screen, with any marks, colours and depths.
pub fn tree_on(rng: &mut Rng, screen: Screen) -> Tree {
    let (column, row) = place_on(rng, screen);
    let plain = rng.chance(2);
    let mut each_mark = || if plain { (rng.next() % 2) as u8 } else { mark(rng) };
    let inside = [(); 16].map(|()| each_mark());
    let outside = [(); 16].map(|()| each_mark());
    let colour = [(); 16].map(|()| rng.next() as u16);
    let depth = [(); 16].map(|()| rng.next() as u16);
    let held = if rng.chance(2) { yes(rng) } else { 0 };
    Tree { column, row, inside, outside, colour, depth, has_depth: held }
}

/// A well-formed state for a RAM this long.
pub fn state_in(rng: &mut Rng, ram: usize) -> State {
    let mut state = FRESH;
    for k in 1..32 {
        state.registers[k] = mixed_word(rng);
    }
    state.negative = if rng.chance(2) { yes(rng) } else { 0 };
    state.zero = if rng.chance(2) { yes(rng) } else { 0 };
    // What means nothing is anything.
    state.screen = Screen { colour_start: mixed_word(rng), depth_start: mixed_word(rng), size_number: mixed_word(rng) };
    state.tree = tree_on(rng, Screen { colour_start: 0, depth_start: 0, size_number: 20960 });
    if !rng.chance(5) {
        if let Some(screen) = screen_in(rng, ram) {
            state = with_screen(state, screen);
            state.has_screen = yes(rng);
            if !rng.chance(4) {
                state = with_tree(state, tree_on(rng, screen));
                state.has_tree = yes(rng);
            }
        }
    }
    state
}

/// A word of this opcode with any registers and any bits where it uses none.
/// Mostly the state is changed so that the step does not halt, and a shift leaves
/// something.
pub fn instruction(rng: &mut Rng, opcode: u32, state: &mut State, ram: usize) -> u32 {
    let (n1, n2, n3) = (register(rng), register(rng), register(rng));
    let mut word = opcode << 26 | n1 << 21 | n2 << 16 | rng.next() as u32 & 0xffff;
    let uses_imm = matches!(opcode, LD | ST | LI | LSLI..=ASRI | JMP..=JGEL | SCRSET | TREEVAL);
    let set_imm = |word: &mut u32, imm: u32| *word = *word & 0xffff_0000 | imm & 0xffff;
    if uses_imm {
        if rng.chance(2) {
            let imm = rng.pick(&[0, 1, 2, 3, 4, 16, 31, 32, 1023, 1024, 0x7fff, 0x8000, 0xfff0, 0xffff]);
            set_imm(&mut word, imm);
        }
    } else {
        word = word & 0xffff_07ff | n3 << 11;
    }
    if rng.chance(4) {
        return word;
    }
    let (_, n1, n2, n3, imm) = fields(word);
    let set = |state: &mut State, register: usize, value: u32| {
        if register != 0 {
            state.registers[register] = value;
        }
    };
    let edge = |rng: &mut Rng, high: i64| match rng.next() % 4 {
        0 => 0,
        1 => high as u32,
        _ => rng.between(0, high) as u32,
    };
    match opcode {
        LD | ST => {
            let address = edge(rng, 1023);
            if n2 == 0 {
                set_imm(&mut word, address);
            } else {
                set(state, n2, address.wrapping_sub(imm as u16 as i16 as u32));
            }
        }
        LSL..=ASR if n3 != n2 => set(state, n3, amount(rng)),
        LSLI..=ASRI => set_imm(&mut word, amount(rng)),
        DOT => {
            set(state, n2, edge(rng, 1020));
            set(state, n3, edge(rng, 1020));
        }
        READ | WRITE if ram >= 64 => {
            let last = (ram as i64 - 64) / 4;
            set(state, n1, edge(rng, 1008));
            set(state, n2, 4 * edge(rng, if n1 == n2 { last.min(252) } else { last }));
        }
        SCRSET => {
            if let Some(screen) = screen_in(rng, ram) {
                set(state, n1, screen.colour_start);
                set(state, n2, screen.depth_start);
                set_imm(&mut word, screen.size_number);
            }
        }
        TREESET if state.has_screen != 0 => {
            let (column, row) = place_on(rng, state.screen);
            set(state, n1, column);
            set(state, n2, row);
        }
        TREEVAL => set_imm(&mut word, rng.between(0, 3) as u32),
        _ => {}
    }
    word
}

/// A word that is anything at all, of any opcode there is.
pub fn any_word(rng: &mut Rng) -> u32 {
    (rng.between(0, 40) as u32) << 26 | rng.next() as u32 & 0x03ff_ffff
}

/// Two words at the edges, or close to what makes sixteen leaves differ in
/// sign: a value and a step.
pub fn leaf_values(rng: &mut Rng) -> (u32, u32) {
    match rng.next() % 5 {
        0 => (rng.next() as u32, rng.next() as u32),
        1 => (rng.pick(&EXTREMES), rng.pick(&EXTREMES)),
        2 => (rng.between(-20, 20) as u32, rng.between(-3, 3) as u32),
        3 => {
            let step = rng.between(-70_000, 70_000);
            ((-step * rng.between(0, 15) + rng.between(-2, 2)) as u32, step as u32)
        }
        _ => {
            // Around 2^31, where the sign turns as well.
            let step = rng.between(-70_000, 70_000);
            ((i64::from(i32::MIN) - step * rng.between(0, 15) + rng.between(-2, 2)) as u32, step as u32)
        }
    }
}
