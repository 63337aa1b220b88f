//! The machine of document 01, as M-103 of 02 changes it, step by step: one test
//! for each row of the table of halts, one `match` over the 41 opcodes, one leaf
//! after the other.

use crate::{clear, colour_of, half_word, ram_too_long, set_half_word, sound, Screen};

// ---------------------------------------------------------------------------
// 01, "Sizes"
// ---------------------------------------------------------------------------

/// 01, Sizes: "Program: 0 to 1,024 words of 32 bits."
pub const PROGRAM_WORDS_AT_MOST: usize = 1024;

/// 01, Sizes: "Data memory: exactly 1,024 words."
pub const DATA_WORDS: usize = 1024;

/// 01, Sizes: "External RAM: ... words and half-words big-endian."
fn word_in(ram: &[u8], at: i128) -> i128 {
    half_word(ram, at) * 65536 + half_word(ram, at + 2)
}

/// 01, Sizes: "External RAM: ... words and half-words big-endian."
fn set_word_in(ram: &mut [u8], at: i128, value: i128) {
    set_half_word(ram, at, value / 65536);
    set_half_word(ram, at + 2, value % 65536);
}

// ---------------------------------------------------------------------------
// The state.
// ---------------------------------------------------------------------------

/// 01, The tree: a leaf "with marks I and O, a colour and a depth". No depth is
/// held at first.
#[derive(Clone, Copy, Debug, PartialEq, Eq)]
pub struct Leaf {
    /// The mark I.
    pub inside: bool,
    /// The mark O.
    pub outside: bool,
    pub colour: u16,
    pub depth: Option<u16>,
}

/// 01, The tree: "Sixteen leaves", at the column and row TREESET gave it.
#[derive(Clone, Copy, Debug, PartialEq, Eq)]
pub struct Tree {
    pub column: u32,
    pub row: u32,
    pub leaves: [Leaf; 16],
}

/// The machine's state. (Program, data memory and RAM are lent to a run.)
#[derive(Clone, Copy, Debug, PartialEq, Eq)]
pub struct State {
    /// 01, Sizes: "32 registers of 32 bits".
    pub registers: [u32; 32],
    pub place: u32,
    /// 01, Machine words: "Two flags, negative and zero".
    pub negative: bool,
    pub zero: bool,
    pub screen: Option<Screen>,
    pub tree: Option<Tree>,
    pub halt: u32,
}

/// 01, Halts: "A fresh state has place 0, registers 0, flags clear, no screen,
/// no tree, halt 0."
pub fn fresh() -> State {
    State { registers: [0; 32], place: 0, negative: false, zero: false, screen: None, tree: None, halt: 0 }
}

impl State {
    /// 01, Sizes: "R0 is always 0, and a write to it is lost."
    fn set(&mut self, register: usize, value: i128) {
        if register != 0 {
            self.registers[register] = keep_32_bits(value);
        }
    }

    /// 01, Machine words: "Two flags, negative and zero, follow the 32-bit
    /// result even when R0 is the target."
    fn result(&mut self, register: usize, value: i128) {
        let kept = keep_32_bits(value);
        self.negative = signed(kept) < 0;
        self.zero = kept == 0;
        self.set(register, value);
    }
}

// ---------------------------------------------------------------------------
// 01, "Numbers a call answers"
// ---------------------------------------------------------------------------

/// "Machine calls use 1 to 4 ... The lowest number that applies to that kind of
/// call wins."
pub fn run_number(program_words: usize, data_words: usize, ram_bytes: usize, state: &State) -> u32 {
    // 1: "program longer than 1,024 words".
    if program_words > PROGRAM_WORDS_AT_MOST {
        return 1;
    }
    // 2: "data memory not 1,024 words".
    if data_words != DATA_WORDS {
        return 2;
    }
    // 3: "RAM longer than 4,194,304 bytes".
    if ram_too_long(ram_bytes) {
        return 3;
    }
    // 4: "machine state ill-formed".
    if ill_formed(ram_bytes, state) {
        return 4;
    }
    0
}

/// "A state is ill-formed exactly if R0 is not 0, the halt number is none of 0
/// and 11 to 17, it has a screen that is not sound in this RAM, or it has a
/// tree and no screen, or a tree place that TREESET would refuse."
pub fn ill_formed(ram_bytes: usize, state: &State) -> bool {
    if state.registers[0] != 0 {
        return true;
    }
    if !(state.halt == 0 || (state.halt >= 11 && state.halt <= 17)) {
        return true;
    }
    if let Some(screen) = state.screen {
        if !sound(ram_bytes, screen) {
            return true;
        }
    }
    if let Some(tree) = state.tree {
        match state.screen {
            None => return true,
            Some(screen) => {
                if place_refused(screen, unsigned(tree.column), unsigned(tree.row)) {
                    return true;
                }
            }
        }
    }
    false
}

/// 01, The tree: "r1 is the column, a multiple of 16 below the width; r2 the
/// row, below the height".
fn place_refused(screen: Screen, column: i128, row: i128) -> bool {
    let column_fits = column % 16 == 0 && column < screen.width();
    let row_fits = row < screen.height();
    !(column_fits && row_fits)
}

// ---------------------------------------------------------------------------
// 01, "Machine words"
// ---------------------------------------------------------------------------

// "Opcode in bits 31..26 is the place of the name in Table 3.1 of source
// document 001, from LD = 0 to TREEPUT = 40 (SUB is 4, as printed)."
pub const LD: u32 = 0;
pub const ST: u32 = 1;
pub const LI: u32 = 2;
pub const ADD: u32 = 3;
pub const SUB: u32 = 4;
pub const MUL: u32 = 5;
pub const MULF: u32 = 6;
pub const RECP: u32 = 7;
pub const AND: u32 = 8;
pub const OR: u32 = 9;
pub const XOR: u32 = 10;
pub const NOT: u32 = 11;
pub const LSL: u32 = 12;
pub const LSR: u32 = 13;
pub const ASR: u32 = 14;
pub const LSLI: u32 = 15;
pub const LSRI: u32 = 16;
pub const ASRI: u32 = 17;
pub const JMP: u32 = 18;
pub const CALL: u32 = 19;
pub const JEQ: u32 = 20;
pub const JEQL: u32 = 21;
pub const JNE: u32 = 22;
pub const JNEL: u32 = 23;
pub const JLT: u32 = 24;
pub const JLTL: u32 = 25;
pub const JLE: u32 = 26;
pub const JLEL: u32 = 27;
pub const JGT: u32 = 28;
pub const JGTL: u32 = 29;
pub const JGE: u32 = 30;
pub const JGEL: u32 = 31;
pub const DOT: u32 = 32;
pub const READ: u32 = 33;
pub const WRITE: u32 = 34;
pub const SCRSET: u32 = 35;
pub const CLS: u32 = 36;
pub const TREESET: u32 = 37;
pub const TREEIN: u32 = 38;
pub const TREEVAL: u32 = 39;
pub const TREEPUT: u32 = 40;

/// A word read as unsigned.
fn unsigned(word: u32) -> i128 {
    i128::from(word)
}

/// A word read as signed.
fn signed(word: u32) -> i128 {
    i128::from(word as i32)
}

/// "keep 32 bits", "modulo 2^32".
fn keep_32_bits(value: i128) -> u32 {
    value.rem_euclid(1 << 32) as u32
}

/// "sign-extended" from 16 bits.
fn sign_extended(half: i128) -> i128 {
    if half >= 32768 {
        half - 65536
    } else {
        half
    }
}

/// A word taken apart: "r1 is bits 25..21, r2 20..16, r3 15..11, imm 15..0.
/// Bits an instruction does not use are ignored (house)."
struct Word {
    opcode: u32,
    r1: usize,
    r2: usize,
    r3: usize,
    imm: i128,
}

fn taken_apart(word: u32) -> Word {
    Word {
        opcode: word / (1 << 26),
        r1: (word / (1 << 21) % 32) as usize,
        r2: (word / (1 << 16) % 32) as usize,
        r3: (word / (1 << 11) % 32) as usize,
        imm: i128::from(word % (1 << 16)),
    }
}

/// "'Address' means r2 plus imm sign-extended from 16 bits, modulo 2^32.
/// Addresses, places, starts, columns and rows are read as unsigned."
fn address(word: &Word, state: &State) -> i128 {
    unsigned(keep_32_bits(unsigned(state.registers[word.r2]) + sign_extended(word.imm)))
}

/// "MULF takes the full signed product, divides by 65,536 rounding down, keeps
/// 32 bits."
pub fn mulf(a: u32, b: u32) -> u32 {
    keep_32_bits((signed(a) * signed(b)).div_euclid(65536))
}

/// "RECP is 2147483647 divided by the signed operand, rounded toward zero; of 0
/// it is 2147483647 (house)."
pub fn recp(operand: u32) -> u32 {
    if operand == 0 {
        return 2147483647;
    }
    // 02, M-102: "Nothing that RECP promises changes." The rule stays.
    // Whole-number division of Rust rounds toward zero.
    keep_32_bits(2147483647 / signed(operand))
}

// 02, M-103: "All six shifts now take the whole amount, the register read as
// unsigned or the 16-bit imm. ... This replaces 01's five-bit rule". So an amount
// is any number from 0 to 2^32 - 1.

/// 02, M-103: "From 32 on, LSL and LSR give 0 ... Below 32 nothing changes."
pub fn lsl(operand: u32, amount: i128) -> u32 {
    if amount >= 32 {
        return 0;
    }
    keep_32_bits(unsigned(operand) * (1 << amount))
}

/// 02, M-103: "From 32 on, LSL and LSR give 0 ... Below 32 nothing changes."
pub fn lsr(operand: u32, amount: i128) -> u32 {
    if amount >= 32 {
        return 0;
    }
    keep_32_bits(unsigned(operand) / (1 << amount))
}

/// 02, M-103: "From 32 on ... ASR gives 0 or -1 by the sign. Below 32 nothing
/// changes." 01: "ASR keeps the sign."
pub fn asr(operand: u32, amount: i128) -> u32 {
    if amount >= 32 {
        return keep_32_bits(if signed(operand) < 0 { -1 } else { 0 });
    }
    keep_32_bits(signed(operand).div_euclid(1 << amount))
}

/// "DOT reads four words from each of the data addresses in r2 and r3, rounds
/// each product as MULF does, then adds."
pub fn dot(data: &[u32], first: i128, second: i128) -> u32 {
    let mut sum = 0;
    for k in 0..4 {
        sum += signed(mulf(data[(first + k) as usize], data[(second + k) as usize]));
    }
    keep_32_bits(sum)
}

// ---------------------------------------------------------------------------
// 01, "Halts"
// ---------------------------------------------------------------------------

/// The number with which the next step halts, or 0 if it does not. The rows of
/// the table, in its order: "The first row that applies wins."
pub fn halt_number(program: &[u32], ram_bytes: usize, state: &State) -> u32 {
    // 12: "place not below the program's length".
    if unsigned(state.place) >= program.len() as i128 {
        return 12;
    }
    let word = taken_apart(program[state.place as usize]);
    let opcode = word.opcode;
    let r1 = unsigned(state.registers[word.r1]);
    let r2 = unsigned(state.registers[word.r2]);
    let r3 = unsigned(state.registers[word.r3]);

    // 11: "opcode above 40".
    if opcode > 40 {
        return 11;
    }
    // 13: "LD, ST address above 1,023; a DOT start above 1,020".
    if (opcode == LD || opcode == ST) && address(&word, state) > 1023 {
        return 13;
    }
    if opcode == DOT && (r2 > 1020 || r3 > 1020) {
        return 13;
    }
    // 15: "READ, WRITE data address above 1,008".
    if (opcode == READ || opcode == WRITE) && r1 > 1008 {
        return 15;
    }
    // 16: "their RAM address not a multiple of 4, or its 64 bytes not all in
    // RAM".
    if (opcode == READ || opcode == WRITE) && (r2 % 4 != 0 || r2 + 64 > ram_bytes as i128) {
        return 16;
    }
    // 17: "SCRSET to a screen not sound; CLS or TREESET with none".
    if opcode == SCRSET && !sound(ram_bytes, screen_asked(&word, state)) {
        return 17;
    }
    if (opcode == CLS || opcode == TREESET) && state.screen.is_none() {
        return 17;
    }
    // 14: "TREESET place refused; TREEIN, TREEVAL, TREEPUT with no tree;
    // TREEVAL imm above 3".
    if opcode == TREESET && state.screen.is_some_and(|screen| place_refused(screen, r1, r2)) {
        return 14;
    }
    if (opcode == TREEIN || opcode == TREEVAL || opcode == TREEPUT) && state.tree.is_none() {
        return 14;
    }
    if opcode == TREEVAL && word.imm > 3 {
        return 14;
    }
    0
}

/// 01, Machine words: "SCRSET: colour start r1, depth start r2, S = imm".
fn screen_asked(word: &Word, state: &State) -> Screen {
    Screen {
        colour_start: state.registers[word.r1],
        depth_start: state.registers[word.r2],
        size_number: word.imm as u32,
    }
}

/// One step that does not halt.
fn carry_out(program: &[u32], data: &mut [u32], ram: &mut [u8], state: &mut State) {
    let word = taken_apart(program[state.place as usize]);
    // What the registers hold at entry.
    let r1 = state.registers[word.r1];
    let r2 = state.registers[word.r2];
    let r3 = state.registers[word.r3];
    let address = address(&word, state);
    // 02, M-103: "All six shifts now take the whole amount, the register read as
    // unsigned or the 16-bit imm."
    let by_register = unsigned(r3);
    let by_imm = word.imm;

    // "A jump goes to address, any other step to the next place; there is no
    // delay slot".
    let next_place = unsigned(state.place) + 1;
    let jump = |taken: bool| keep_32_bits(if taken { address } else { next_place });
    state.place = jump(false);

    match word.opcode {
        LD => state.result(word.r1, unsigned(data[address as usize])),
        // "All instructions from LD to ASRI but ST set them [the flags]".
        ST => data[address as usize] = r1,
        // "LI loads the low 16 bits of address, sign-extended."
        LI => state.result(word.r1, sign_extended(address % 65536)),

        // "Sums, differences (r2 less r3) and products keep 32 bits."
        ADD => state.result(word.r1, signed(r2) + signed(r3)),
        SUB => state.result(word.r1, signed(r2) - signed(r3)),
        MUL => state.result(word.r1, signed(r2) * signed(r3)),
        MULF => state.result(word.r1, unsigned(mulf(r2, r3))),
        RECP => state.result(word.r1, unsigned(recp(r2))),

        AND => state.result(word.r1, unsigned(r2) & unsigned(r3)),
        OR => state.result(word.r1, unsigned(r2) | unsigned(r3)),
        XOR => state.result(word.r1, unsigned(r2) ^ unsigned(r3)),
        NOT => state.result(word.r1, !signed(r2)),

        LSL => state.result(word.r1, unsigned(lsl(r2, by_register))),
        LSR => state.result(word.r1, unsigned(lsr(r2, by_register))),
        ASR => state.result(word.r1, unsigned(asr(r2, by_register))),
        LSLI => state.result(word.r1, unsigned(lsl(r2, by_imm))),
        LSRI => state.result(word.r1, unsigned(lsr(r2, by_imm))),
        ASRI => state.result(word.r1, unsigned(asr(r2, by_imm))),

        JMP => state.place = jump(true),
        // "CALL puts the next place in R31 after address is worked out
        // (house)."
        CALL => {
            state.set(31, next_place);
            state.place = jump(true);
        }
        // "JLT reads negative; JLE negative or zero; JGT neither; JGE not
        // negative; JEQ zero; JNE not zero. ... a 'likely' form means the same
        // as the plain one (house)."
        JEQ | JEQL => state.place = jump(state.zero),
        JNE | JNEL => state.place = jump(!state.zero),
        JLT | JLTL => state.place = jump(state.negative),
        JLE | JLEL => state.place = jump(state.negative || state.zero),
        JGT | JGTL => state.place = jump(!state.negative && !state.zero),
        JGE | JGEL => state.place = jump(!state.negative),

        // "... and DOT [sets the flags]; no other does."
        DOT => state.result(word.r1, unsigned(dot(data, unsigned(r2), unsigned(r3)))),

        // "READ copies 16 words from the RAM byte address in r2 to the data
        // address in r1; WRITE the other way (house)."
        READ => {
            for k in 0..16 {
                data[(unsigned(r1) + k) as usize] = word_in(ram, unsigned(r2) + 4 * k) as u32;
            }
        }
        WRITE => {
            for k in 0..16 {
                set_word_in(ram, unsigned(r2) + 4 * k, unsigned(data[(unsigned(r1) + k) as usize]));
            }
        }

        // "SCRSET: colour start r1, depth start r2, S = imm; it drops the
        // tree."
        SCRSET => {
            state.screen = Some(screen_asked(&word, state));
            state.tree = None;
        }
        // "CLS fills colour with the low half of r1 and depth with that of r2."
        CLS => {
            if let Some(screen) = state.screen {
                clear(ram, screen, (r1 % 65536) as u16, (r2 % 65536) as u16);
            }
        }

        // 01, The tree: "TREESET: r1 is the column ...; r2 the row ...; r3 a
        // mask, bit 15 for leaf 0, bit 0 for leaf 15, higher bits ignored. A
        // leaf with its bit set starts at I = 1, O = 0, others at I = 0, O = 1;
        // colours 0, no depth held."
        TREESET => {
            let leaf = |k: usize| {
                let set = r3 / (1 << (15 - k)) % 2 == 1;
                Leaf { inside: set, outside: !set, colour: 0, depth: None }
            };
            state.tree = Some(Tree { column: r1, row: r2, leaves: std::array::from_fn(leaf) });
        }
        // 01, The tree: "TREEIN and TREEVAL give leaf k the value r1 + k·r2
        // modulo 2^32, using register contents at entry, then add 16·r2 to r1.
        // TREEIN: a signed positive value clears I, a negative one sets O."
        TREEIN => {
            if let Some(tree) = &mut state.tree {
                for k in 0..16 {
                    let value = leaf_value(r1, r2, k);
                    let leaf = &mut tree.leaves[k as usize];
                    if signed(value) > 0 {
                        leaf.inside = false;
                    }
                    if signed(value) < 0 {
                        leaf.outside = true;
                    }
                }
            }
            state.set(word.r1, unsigned(r1) + 16 * unsigned(r2));
        }
        // 01, The tree: "TREEVAL 0 holds the top half as depth and, where it is
        // above the stored depth, clears I and sets O; 1, 2, 3 replace red,
        // green, blue."
        TREEVAL => {
            if let (Some(screen), Some(tree)) = (state.screen, &mut state.tree) {
                for k in 0..16 {
                    let value = unsigned(leaf_value(r1, r2, k));
                    let leaf = &mut tree.leaves[k as usize];
                    // 01, Sizes: "Colour is red × 2048 + green × 32 + blue (5,
                    // 6, 5 bits)."
                    let colour = i128::from(leaf.colour);
                    let (red, green, blue) = (colour / 2048, colour / 32 % 64, colour % 32);
                    match word.imm {
                        0 => {
                            let depth = value / 65536;
                            let x = unsigned(tree.column) + k;
                            let place = screen.place(x, unsigned(tree.row));
                            let stored = half_word(ram, unsigned(screen.depth_start) + place);
                            leaf.depth = Some(depth as u16);
                            if depth > stored {
                                leaf.inside = false;
                                leaf.outside = true;
                            }
                        }
                        // 01, Triangles: "red and blue are bits 16 to 20, green
                        // bits 16 to 21."
                        1 => leaf.colour = colour_of(value / 65536 % 32, green, blue) as u16,
                        2 => leaf.colour = colour_of(red, value / 65536 % 64, blue) as u16,
                        _ => leaf.colour = colour_of(red, green, value / 65536 % 32) as u16,
                    }
                }
            }
            state.set(word.r1, unsigned(r1) + 16 * unsigned(r2));
        }
        // 01, The tree: "TREEPUT writes each leaf with I = 1 or O = 0: its
        // colour always, its depth only if one is held. The tree stays."
        TREEPUT => {
            if let (Some(screen), Some(tree)) = (state.screen, &state.tree) {
                for k in 0..16 {
                    let leaf = &tree.leaves[k as usize];
                    let place = screen.place(unsigned(tree.column) + k, unsigned(tree.row));
                    if leaf.inside || !leaf.outside {
                        set_half_word(ram, unsigned(screen.colour_start) + place, i128::from(leaf.colour));
                        if let Some(depth) = leaf.depth {
                            set_half_word(ram, unsigned(screen.depth_start) + place, i128::from(depth));
                        }
                    }
                }
            }
        }
        _ => unreachable!("opcodes above 40 halt"),
    }
}

/// 01, The tree: "leaf k the value r1 + k·r2 modulo 2^32".
pub fn leaf_value(r1: u32, r2: u32, k: i128) -> u32 {
    keep_32_bits(unsigned(r1) + k * unsigned(r2))
}

/// The answer to a run: its number, the steps carried out, and the state.
#[derive(Clone, Copy, Debug, PartialEq, Eq)]
pub struct Ran {
    pub number: u32,
    pub steps: u64,
    pub state: State,
}

/// 01, Halts: "A run takes a count of steps allowed and reports the steps
/// carried out; it stops only at that count or at a halt."
pub fn run(program: &[u32], data: &mut [u32], ram: &mut [u8], given: &State, allowed: u64) -> Ran {
    let number = run_number(program.len(), data.len(), ram.len(), given);
    if number != 0 {
        // 01, Numbers: "Every number but 0 comes with counts of 0, the state as
        // given, and all lent memory as it was."
        return Ran { number, steps: 0, state: *given };
    }
    let mut state = *given;
    let mut steps = 0;
    // "A halted state runs 0 steps and stays."
    while steps < allowed && state.halt == 0 {
        let halt = halt_number(program, ram.len(), &state);
        if halt != 0 {
            // "A halting step changes only the halt number and is not counted."
            state.halt = halt;
        } else {
            carry_out(program, data, ram, &mut state);
            steps += 1;
        }
    }
    Ran { number: 0, steps, state }
}

/// The answer to a step: its number, whether it was carried out, and the state.
#[derive(Clone, Copy, Debug, PartialEq, Eq)]
pub struct Stepped {
    pub number: u32,
    pub carried_out: bool,
    pub state: State,
}

/// A step by itself (docs/RULES.md, 12.1), refused as a run is. It stands beside
/// the loop of `run`, so that the one can be compared with the other.
pub fn step(program: &[u32], data: &mut [u32], ram: &mut [u8], given: &State) -> Stepped {
    let number = run_number(program.len(), data.len(), ram.len(), given);
    // "A halted state runs 0 steps and stays", and so does a refused one.
    let mut stepped = Stepped { number, carried_out: false, state: *given };
    if number != 0 || given.halt != 0 {
        return stepped;
    }
    match halt_number(program, ram.len(), given) {
        0 => {
            carry_out(program, data, ram, &mut stepped.state);
            stepped.carried_out = true;
        }
        // "A halting step changes only the halt number and is not counted."
        halt => stepped.state.halt = halt,
    }
    stepped
}

#[cfg(test)]
mod tests {
    use super::*;

    /// R3 and the two flags after one step of this opcode: the operand in R1, the
    /// amount in R2 or as imm.
    fn shifted(opcode: u32, operand: u32, amount: u32) -> (u32, bool, bool) {
        let last = if opcode >= LSLI { amount } else { 2 << 11 };
        let word = opcode << 26 | 3 << 21 | 1 << 16 | last;
        let mut given = State { negative: true, zero: true, ..fresh() };
        (given.registers[1], given.registers[2]) = (operand, if opcode >= LSLI { 0 } else { amount });
        let stepped = step(&[word], &mut [0; DATA_WORDS], &mut [], &given);
        assert!(stepped.carried_out);
        (stepped.state.registers[3], stepped.state.negative, stepped.state.zero)
    }

    const OPERANDS: [u32; 8] = [0, 1, 2, 0x1234_5678, 0x7fff_ffff, 0x8000_0000, 0xfedc_ba98, u32::MAX];

    #[test]
    fn nothing_is_left_from_32_on() {
        for amount in [32, 33, 63, 64, 96, 256, 32767, 32768, 65535, 65536, 65537, 1 << 31, u32::MAX - 31, u32::MAX] {
            for operand in OPERANDS {
                let sign = if operand >= 1 << 31 { (u32::MAX, true, false) } else { (0, false, true) };
                for (by_register, by_imm, wanted) in
                    [(LSL, LSLI, (0, false, true)), (LSR, LSRI, (0, false, true)), (ASR, ASRI, sign)]
                {
                    assert_eq!(shifted(by_register, operand, amount), wanted);
                    if amount <= 65535 {
                        assert_eq!(shifted(by_imm, operand, amount), wanted);
                    }
                }
            }
        }
    }

    #[test]
    fn nothing_changes_below_32() {
        for amount in 0..32 {
            for operand in OPERANDS {
                let [left, right, kept] = [operand << amount, operand >> amount, (operand as i32 >> amount) as u32];
                for (opcode, wanted) in
                    [(LSL, left), (LSLI, left), (LSR, right), (LSRI, right), (ASR, kept), (ASRI, kept)]
                {
                    assert_eq!(shifted(opcode, operand, amount), (wanted, wanted >= 1 << 31, wanted == 0));
                }
            }
        }
        // 01: "ASR of -3 by 1 is -2."
        assert_eq!(shifted(ASR, 3u32.wrapping_neg(), 1).0 as i32, -2);
    }
}
