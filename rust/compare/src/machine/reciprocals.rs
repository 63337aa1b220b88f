//! RECP in long runs and in short ones. 02, M-102: "For operands 1 to 512 use a
//! stored table of 512 reciprocals. ... Nothing that RECP promises changes." An
//! engine that copied its table would do so in long runs alone, as ours once
//! did, so runs of both kinds are tried.

use super::case::{with_regs, Case, EXTREMES, FRESH};
use super::groups::{gives, in_parts, one_run};
use super::long::{self, Often};
use super::parts::state_in;
use crate::run::Run;
use kit::rng::Rng;
use kit::words::{idle, rri, rrr, to, Program};
use merikohin::State;
use second::machine::*;

/// Steps allowed from which on a copied table would pay.
pub const LONG_RUN: u64 = 1_024;

/// Far above it, and on both sides of it.
pub const BUDGETS: [u64; 4] = [1_000_000, LONG_RUN, LONG_RUN - 1, 1];

fn minus(n: u32) -> u32 {
    n.wrapping_neg()
}

pub fn around(n: u64) -> [u64; 3] {
    [n.wrapping_sub(1), n, n.wrapping_add(1)]
}

/// 01: "RECP is 2147483647 divided by the signed operand, rounded toward zero; of
/// 0 it is 2147483647 (house)." Of 1 to 512, floor(2147483647 / d).
fn reciprocal(operand: u32) -> u32 {
    let d = operand as i32;
    match d.unsigned_abs() {
        0 => 2147483647,
        size if d < 0 => minus(2147483647 / size),
        size => 2147483647 / size,
    }
}

/// The operand in R1, and both flags set: every result clears one at least.
fn with_operand(operand: u32) -> State {
    State { negative: 1, zero: 1, ..with_regs(&[(1, operand)]) }
}

/// The RECP that is the program's last word gives its result and its flags.
fn wants(run: &mut Run, case: &Case, operand: u32) {
    gives(run, case, reciprocal(operand));
}

/// Every small operand, those around each power of two, those with bits set
/// above the table's; all of them of both signs.
fn operands() -> Vec<u32> {
    let mut list: Vec<u32> = (0..=1100).chain(EXTREMES).collect();
    list.extend((0..32).flat_map(|bit| around(1 << bit)).map(|n| n as u32));
    for low in [0, 1, 2, 3, 346, 347, 511, 512, 513, 1022, 1023] {
        list.extend((10..32).map(|bit| 1 << bit | low));
        list.extend([0x7fff_fc00, 0xffff_fc00, 0x0001_0400, 0x5555_5400].map(|high: u32| high | low));
    }
    list.extend(list.clone().into_iter().map(minus));
    list.sort_unstable();
    list.dedup();
    list
}

/// Each operand by a run of many steps allowed, of fewer, of one, and by a step.
pub fn each(run: &mut Run, _: &mut Rng) {
    let list = operands();
    for &operand in &list {
        for budget in BUDGETS {
            wants(run, &one_run(vec![rrr(RECP, 3, 1, 0)], with_operand(operand), budget), operand);
        }
    }
    run.note(format!("{} operands", list.len()));
}

/// Steps allowed around every power of two, so that some are on either side of
/// `LONG_RUN` wherever it is put.
pub fn budgets(run: &mut Run, _: &mut Rng) {
    let edges = [1, 2, 511, 512, 513, 0, minus(1), minus(512)];
    let mut budgets: Vec<u64> = (0..64).flat_map(|bit| around(1 << bit)).collect();
    budgets.extend([LONG_RUN - 2, 1_000_000, u64::MAX - 1, u64::MAX]);
    for &budget in budgets.iter().filter(|&&budget| budget > 0) {
        for operand in edges {
            wants(run, &one_run(vec![rrr(RECP, 3, 1, 0)], with_operand(operand), budget), operand);
        }
    }
    // Late in a run, and as the last step it allows.
    for before in [1, 2, 511, 512, 1021, 1022, 1023] {
        let mut program: Vec<u32> = (0..before).map(idle).collect();
        program.push(rrr(RECP, 3, 1, 0));
        let steps = program.len() as u64;
        for budget in [steps, steps + 1, LONG_RUN - 1, LONG_RUN, LONG_RUN + 1, 2 * LONG_RUN, u64::MAX] {
            for operand in edges {
                if budget >= steps {
                    wants(run, &one_run(program.clone(), with_operand(operand), budget), operand);
                }
            }
        }
    }
}

/// r1 = r2, R0 as the target ("Two flags, negative and zero, follow the 32-bit
/// result even when R0 is the target"), R0 as the operand.
pub fn registers(run: &mut Run, rng: &mut Rng) {
    let mut values = vec![0, 1 << 31, (1 << 31) + 1, (1 << 31) - 1];
    for n in [1, 2, 347, 511, 512, 513] {
        values.extend([n, minus(n)]);
    }
    for (r1, r2) in [(3, 1), (1, 1), (31, 31), (1, 31), (0, 1), (3, 0), (0, 0)] {
        for &value in &values {
            let operand = if r2 == 0 { 0 } else { value };
            for flags in 0..4 {
                let mut state = State { negative: flags & 1, zero: flags >> 1, ..state_in(rng, 0) };
                state.registers[r2 as usize] = operand;
                // "Bits an instruction does not use are ignored (house)."
                let word = rrr(RECP, r1, r2, 0) | rng.next() as u32 & 0xffff;
                for budget in BUDGETS {
                    wants(run, &one_run(vec![word], state, budget), operand);
                }
                // The flags as each jump reads them.
                for jump in (JEQ..=JGE).step_by(2) {
                    for budget in BUDGETS {
                        let program = vec![word, to(jump, 3), rri(LI, 5, 0, 7)];
                        run.machine(&one_run(program, state, budget));
                    }
                }
            }
        }
    }
}

/// The words of data memory after a run are the reciprocals of these.
fn stored(run: &mut Run, case: &Case, steps: u64, operands: impl Iterator<Item = u32>) {
    if run.machine_wants(case, 0, Some(steps), Some(12)).is_some() {
        let seen = run.machine_memories.subject_data().to_vec();
        for (at, operand) in operands.enumerate() {
            let wanted = reciprocal(operand);
            run.holds(seen[at] == wanted, || {
                format!("{case}: RECP of {operand:x}, wanted {wanted:x}, answered {:x}", seen[at])
            });
        }
    }
}

/// A loop that counts an operand up from `first` and stores each reciprocal, and
/// the steps it takes to fill data memory.
fn counting(first: i64) -> (Vec<u32>, u64) {
    const OPERAND: u32 = 1;
    const BY: u32 = 2;
    const END: u32 = 3;
    const RESULT: u32 = 4;
    let words = DATA_WORDS as i64;
    let mut program = Program::default();
    program.rri(LI, OPERAND, 0, first);
    program.rri(LI, BY, 0, 1);
    program.rri(LI, END, 0, first + words);
    let start = program.mark();
    program.put(start);
    program.rrr(RECP, RESULT, OPERAND, 0);
    program.rri(ST, RESULT, OPERAND, -first);
    program.rrr(ADD, OPERAND, OPERAND, BY);
    program.rrr(SUB, 0, OPERAND, END);
    program.jump(JLT, start);
    (program.done(), 3 + 5 * words as u64)
}

/// A run cut into runs of these sizes, in turn.
pub fn cut(total: u64, sizes: &[u64]) -> Vec<u64> {
    let mut parts = Vec::new();
    let mut left = total;
    for &size in sizes.iter().cycle() {
        if left == 0 {
            break;
        }
        parts.push(size.min(left));
        left -= size.min(left);
    }
    parts
}

/// Operands counted up past the table's end, each reciprocal stored: in one run,
/// in shorter runs one after the other, and by single steps.
pub fn counted(run: &mut Run, rng: &mut Rng) {
    for first in [0i64, 1, -512, -1023, -1024, 512, 20_000] {
        let (program, steps) = counting(first);
        let case = Case::one(program, 0, rng.next(), FRESH, 0);
        let operands = || (0..DATA_WORDS as i64).map(|k| (first + k) as u32);
        for budget in [steps + 1, 1_000_000, u64::MAX] {
            stored(run, &Case { runs: vec![budget], ..case.clone() }, steps, operands());
        }
        // "Running m and then n steps ends as running m + n ..."
        let total = steps + 10;
        for size in [1, 2, 3, 100, 511, 512, 1000, 1022, 1023, 1024, 1025, 2047, 2048, 3000, 4096, steps - 1, steps] {
            in_parts(run, &case, total, cut(total, &[size]));
        }
        for sizes in [[1, LONG_RUN], [LONG_RUN - 1, LONG_RUN], [LONG_RUN + 1, 5], [2 * LONG_RUN, LONG_RUN - 2]] {
            in_parts(run, &case, total, cut(total, &sizes));
        }
        run.machine(&Case { runs: vec![total], singly: total, ..case });
    }
}

/// Data memory full of operands, each replaced by its reciprocal in one run:
/// every operand of 17 bits, those around each power of two, any.
pub fn replaced(run: &mut Run, rng: &mut Rng) {
    const PLACE: u32 = 1;
    const END: u32 = 2;
    const WORD: u32 = 3;
    let mut program = Program::default();
    program.rri(LI, END, 0, DATA_WORDS as i64);
    let start = program.mark();
    program.put(start);
    program.rri(LD, WORD, PLACE, 0);
    program.rrr(RECP, WORD, WORD, 0);
    program.rri(ST, WORD, PLACE, 0);
    program.rri(LI, PLACE, PLACE, 1);
    program.rrr(SUB, 0, PLACE, END);
    program.jump(JLT, start);
    let program = program.done();
    let steps = 1 + 6 * DATA_WORDS as u64;

    let mut list: Vec<u32> = (-65_536..65_536i32).map(|n| n as u32).collect();
    for bit in 16..32 {
        list.extend((-64..64i64).flat_map(|by| [((1 << bit) + by) as u32, (by - (1 << bit)) as u32]));
    }
    list.resize_with((list.len() / DATA_WORDS + 16) * DATA_WORDS, || rng.next() as u32);
    for words in list.chunks(DATA_WORDS) {
        let case = Case::one(program.clone(), 0, rng.next(), FRESH, rng.pick(&[steps + 1, 1_000_000]));
        stored(run, &case.with_words(0, words), steps, words.iter().copied());
    }
    run.note(format!("{} operands", list.len()));
}

/// Random programs with many RECPs.
pub fn programs(run: &mut Run, rng: &mut Rng) {
    let profile = long::cut_programs(run, rng, Often::Reciprocals);
    run.note(format!("steps of the first 100: {}", profile.reciprocals()));
}
