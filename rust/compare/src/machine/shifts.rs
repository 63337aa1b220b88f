//! The six shifts. 02, M-103: "All six shifts now take the whole amount, the
//! register read as unsigned or the 16-bit imm. From 32 on, LSL and LSR give 0,
//! and ASR gives 0 or -1 by the sign. Below 32 nothing changes. This replaces
//! 01's five-bit rule".

use super::case::{mixed_word, with_regs, Case, EXTREMES};
use super::groups::{gives, in_parts, one_run};
use super::long::{self, Often};
use super::parts::state_in;
use super::reciprocals::{around, cut, BUDGETS, LONG_RUN};
use crate::run::Run;
use kit::rng::Rng;
use kit::words::{rri, rrr, to, Program};
use merikohin::State;
use second::machine::*;

const SHIFTS: [u32; 6] = [LSL, LSR, ASR, LSLI, LSRI, ASRI];

/// The same shift by a register and by imm.
const FORMS: [[u32; 2]; 3] = [[LSL, LSLI], [LSR, LSRI], [ASR, ASRI]];

/// Words to shift, of both signs.
const OPERANDS: [u32; 20] = [
    0,
    1,
    2,
    3,
    31,
    32,
    0x0001_0000,
    0x1234_5678,
    0x4000_0000,
    0x5555_5555,
    0x7fff_fffe,
    0x7fff_ffff,
    0x8000_0000,
    0x8000_0001,
    0xaaaa_aaaa,
    0xc000_0000,
    0xfedc_ba98,
    0xffff_fffd,
    0xffff_fffe,
    0xffff_ffff,
];

fn by_imm(opcode: u32) -> bool {
    opcode >= LSLI
}

/// What a shift gives. Rust has an answer of its own for less than 32 alone.
fn shifted(opcode: u32, operand: u32, amount: u32) -> u32 {
    let signed = operand as i32;
    match opcode {
        LSL | LSLI => operand.checked_shl(amount).unwrap_or(0),
        LSR | LSRI => operand.checked_shr(amount).unwrap_or(0),
        _ => signed.checked_shr(amount).unwrap_or(if signed < 0 { -1 } else { 0 }) as u32,
    }
}

/// A shift of R1 by R2, or by imm where the amount fits, to R3; and the registers
/// it needs.
fn of(opcode: u32, operand: u32, amount: u32) -> Option<(u32, State)> {
    if !by_imm(opcode) {
        return Some((rrr(opcode, 3, 1, 2), with_regs(&[(1, operand), (2, amount)])));
    }
    // R2 holds something else, lest it be taken for the amount.
    (amount <= 65535).then(|| (rri(opcode, 3, 1, i64::from(amount)), with_regs(&[(1, operand), (2, amount ^ 1)])))
}

/// Every amount up to 70, those around each power of two, around multiples of 32,
/// of 64 and of 2^16, those whose low bits alone say less than 32.
fn amounts() -> Vec<u32> {
    let mut list: Vec<u32> = (0..=70).chain(EXTREMES).collect();
    list.extend((0..=32).flat_map(|bit| around(1 << bit)).map(|n| n as u32));
    for step in [32, 64, 1 << 16] {
        for times in [2, 3, 5, 7, 31, 32, 33, 1000, 1023, 1025, 2047, 32767, 65535] {
            list.extend(around(step * times).map(|n| n as u32));
        }
    }
    for low in [0, 1, 5, 16, 31] {
        list.extend((5..32).map(|bit| 1 << bit | low));
        for high in [0x60, 0xc0, 0xffc0, 0xffe0, 0x0001_0020, 0x5555_5540, 0x7fff_ffe0, 0xffff_8000, 0xffff_ffe0] {
            list.push(high | low);
        }
    }
    list.sort_unstable();
    list.dedup();
    list
}

/// Each amount by each of the six, by a run of many steps allowed, of fewer, of
/// one, and by a step. Both flags are set before: every result clears one at
/// least.
pub fn each(run: &mut Run, _: &mut Rng) {
    let list = amounts();
    for &amount in &list {
        for operand in OPERANDS {
            for opcode in SHIFTS {
                let Some((word, state)) = of(opcode, operand, amount) else { continue };
                let state = State { negative: 1, zero: 1, ..state };
                for budget in BUDGETS {
                    gives(run, &one_run(vec![word], state, budget), shifted(opcode, operand, amount));
                }
            }
        }
    }
    run.note(format!("{} amounts, {} of 32 and more", list.len(), list.iter().filter(|&&amount| amount >= 32).count()));
}

/// "Below 32 nothing changes."
pub fn below_32(run: &mut Run, rng: &mut Rng) {
    let mut operands: Vec<u32> = OPERANDS.into_iter().chain(EXTREMES).collect();
    operands.extend((0..32).flat_map(|bit| [1 << bit, !(1 << bit), u32::MAX << bit, u32::MAX >> bit]));
    operands.resize_with(operands.len() + 40, || rng.next() as u32);
    operands.sort_unstable();
    operands.dedup();
    for &a in &operands {
        for amount in 0..32 {
            let wanted = [a << amount, a >> amount, (a as i32 >> amount) as u32];
            for (forms, wanted) in FORMS.into_iter().zip(wanted) {
                for opcode in forms {
                    let Some((word, state)) = of(opcode, a, amount) else { continue };
                    for budget in [LONG_RUN, 1] {
                        gives(run, &one_run(vec![word], state, budget), wanted);
                    }
                }
            }
        }
    }
    run.note(format!("{} operands", operands.len()));
}

/// The shifted register as its own amount, the amount as the target, R0 for each
/// of the three ("Two flags, negative and zero, follow the 32-bit result even when
/// R0 is the target"); any flags before.
pub fn registers(run: &mut Run, rng: &mut Rng) {
    let operands = [1, 0x7fff_ffff, 0x8000_0000, 0xffff_fffe];
    let amounts = [0, 1, 31, 32, 33, 63, 64, 0x8000, 65535, 65536, 1 << 31, u32::MAX];
    let three_registers = [(3, 1, 2), (1, 1, 2), (2, 1, 2), (31, 30, 29), (0, 1, 2), (3, 0, 2), (3, 1, 0), (0, 0, 2)];
    // With r2 = r3 the operand is the amount.
    let one_register = [(3, 1, 1), (1, 1, 1), (31, 31, 31), (0, 1, 1), (0, 0, 0)];
    for opcode in SHIFTS {
        for (r1, r2, r3) in three_registers.into_iter().chain(one_register) {
            for operand in operands {
                for amount in amounts {
                    let mut state = state_in(rng, 0);
                    state.registers[r2] = operand;
                    state.registers[r3] = amount;
                    state.registers[0] = 0;
                    // "Bits an instruction does not use are ignored (house)."
                    let word = rrr(opcode, r1, r2 as u32, r3 as u32) | rng.next() as u32 & 0x7ff;
                    let (word, amount) = match by_imm(opcode) {
                        true if amount > 65535 => continue,
                        true => (word & 0xffff_0000 | amount, amount),
                        false => (word, state.registers[r3]),
                    };
                    let wanted = shifted(opcode, state.registers[r2], amount);
                    for flags in 0..4 {
                        let state = State { negative: flags & 1, zero: flags >> 1, ..state };
                        for budget in BUDGETS {
                            gives(run, &one_run(vec![word], state, budget), wanted);
                        }
                    }
                    // The flags as each jump reads them.
                    for jump in (JEQ..=JGE).step_by(2) {
                        let program = vec![word, to(jump, 3), rri(LI, 5, 0, 7)];
                        run.machine(&one_run(program, state, rng.pick(&BUDGETS)));
                    }
                }
            }
        }
    }
    // Each amount as its own operand.
    for _ in 0..2000 {
        let a = mixed_word(rng);
        for opcode in [LSL, LSR, ASR] {
            let case = one_run(vec![rrr(opcode, 1, 1, 1)], with_regs(&[(1, a)]), rng.pick(&BUDGETS));
            gives(run, &case, shifted(opcode, a, a));
        }
    }
}

/// After its runs, the words of data memory are the operand shifted by these.
fn stored(run: &mut Run, case: &Case, opcode: u32, operand: u32, amounts: impl Iterator<Item = u32>) {
    if run.machine(case).is_some() {
        let seen = run.machine_memories.subject_data().to_vec();
        for (at, amount) in amounts.enumerate() {
            let wanted = shifted(opcode, operand, amount);
            run.holds(seen[at] == wanted, || {
                format!("{case}: {operand:x} by {amount:x}, wanted {wanted:x}, answered {:x}", seen[at])
            });
        }
    }
}

/// Every imm there is, each result stored: half a thousand in a program that is as
/// long as one may be.
pub fn every_imm(run: &mut Run, rng: &mut Rng) {
    const OPERAND: u32 = 1;
    const RESULT: u32 = 2;
    let words = PROGRAM_WORDS_AT_MOST as u64;
    for opcode in [LSLI, LSRI, ASRI] {
        for operand in [0x7fff_ffff, 0x8000_0001, u32::MAX] {
            for first in (0..65536).step_by(PROGRAM_WORDS_AT_MOST / 2) {
                let imms = first..first + words as u32 / 2;
                let mut program = Program::default();
                for (at, imm) in imms.clone().enumerate() {
                    program.rri(opcode, RESULT, OPERAND, i64::from(imm));
                    program.rri(ST, RESULT, 0, at as i64);
                }
                let state = with_regs(&[(OPERAND, operand), (RESULT, mixed_word(rng))]);
                let case = Case::one(program.done(), 0, rng.next(), state, 0);
                let runs = rng.pick(&[[words, 0], [words + 1, 0], [LONG_RUN - 1, 2], [words / 2, words / 2]]);
                stored(run, &Case { runs: runs.to_vec(), singly: 2, ..case }, opcode, operand, imms);
            }
        }
    }
}

/// A loop that shifts an operand by each amount from `first` on and stores the
/// results, and the steps it takes to fill data memory.
fn counting(opcode: u32, operand: u32, first: u32) -> (Vec<u32>, State, u64) {
    const OPERAND: u32 = 1;
    const AMOUNT: u32 = 2;
    const BY: u32 = 3;
    const PLACE: u32 = 4;
    const END: u32 = 5;
    const RESULT: u32 = 6;
    let words = DATA_WORDS as u32;
    let mut program = Program::default();
    let start = program.mark();
    program.put(start);
    program.rrr(opcode, RESULT, OPERAND, AMOUNT);
    program.rri(ST, RESULT, PLACE, 0);
    program.rrr(ADD, AMOUNT, AMOUNT, BY);
    program.rri(LI, PLACE, PLACE, 1);
    program.rrr(SUB, 0, PLACE, END);
    program.jump(JLT, start);
    let state = with_regs(&[(OPERAND, operand), (AMOUNT, first), (BY, 1), (END, words)]);
    (program.done(), state, 6 * u64::from(words))
}

/// Amounts in a register counted up, from 0 and past each end that a narrower
/// number has: in one run, in shorter runs one after the other, by single steps.
pub fn counted(run: &mut Run, rng: &mut Rng) {
    for opcode in [LSL, LSR, ASR] {
        for operand in [1, 0x7fff_ffff, 0x8000_0000, 0xfedc_ba98, u32::MAX] {
            for end in [0u32, 512, 1 << 15, 1 << 16, 3 << 16, 1 << 24, 1 << 31] {
                // From 512 before the end, which for 0 is 2^32.
                let first = end.wrapping_sub(512);
                let (program, state, steps) = counting(opcode, operand, first);
                let case = Case::one(program, 0, rng.next(), state, 0);
                let amounts = || (0..DATA_WORDS as u32).map(|k| first.wrapping_add(k));
                for budget in [steps, 1_000_000, u64::MAX] {
                    stored(run, &Case { runs: vec![budget], ..case.clone() }, opcode, operand, amounts());
                }
                // "Running m and then n steps ends as running m + n ..."
                let total = steps + 10;
                let size = rng.pick(&[1, 2, 100, LONG_RUN - 1, LONG_RUN + 1, 4096, steps - 1]);
                for sizes in [[1, LONG_RUN], [LONG_RUN - 1, LONG_RUN], [size, size]] {
                    in_parts(run, &case, total, cut(total, &sizes));
                }
                if end == 0 || end == 1 << 16 {
                    run.machine(&Case { runs: vec![total], singly: total, ..case });
                }
            }
        }
    }
}

/// R3 and both flags after a run of words that shift R1 by R2 and then R3 by R4.
fn last(run: &mut Run, program: &[u32], state: State, budget: u64) -> Option<(u32, u32, u32)> {
    let steps = program.len() as u64;
    let case = one_run(program.to_vec(), state, budget);
    let ran = run.machine_wants(&case, 0, Some(steps), Some(if budget > steps { 12 } else { 0 }))?;
    Some((ran.state.registers[3], ran.state.negative, ran.state.zero))
}

/// Two shifts of a kind in turn are one by the sum of both amounts, where the sum
/// is below 2^32. (By 01's five bits they were not: two by 16 left nothing, one by
/// 32 left all.)
pub fn in_turn(run: &mut Run, rng: &mut Rng) {
    let amounts = [
        0u32,
        1,
        2,
        5,
        15,
        16,
        17,
        30,
        31,
        32,
        33,
        48,
        63,
        64,
        65,
        255,
        256,
        0x7fff,
        0x8000,
        0xffe0,
        0xffff,
        1 << 16,
        (1 << 16) + 1,
        (1 << 31) - 1,
        1 << 31,
        u32::MAX - 31,
        u32::MAX,
    ];
    let operands = [0, 1, 0x1234_5678, 0x7fff_ffff, 0x8000_0000, 0xfedc_ba98, 0xffff_fffe, u32::MAX];
    let mut sums = 0;
    for m in amounts {
        for n in amounts {
            let Some(sum) = m.checked_add(n) else { continue };
            sums += 1;
            for a in operands {
                let state = with_regs(&[(1, a), (2, m), (4, n)]);
                for [by_register, by_imm] in FORMS {
                    let budget = rng.pick(&[LONG_RUN, 1_000_000, 1]);
                    let Some(once) = last(run, &[rrr(by_register, 3, 1, 2)], with_regs(&[(1, a), (2, sum)]), budget)
                    else {
                        continue;
                    };
                    let mut firsts = vec![rrr(by_register, 3, 1, 2)];
                    let mut seconds = vec![rrr(by_register, 3, 3, 4)];
                    firsts.extend((m <= 65535).then(|| rri(by_imm, 3, 1, i64::from(m))));
                    seconds.extend((n <= 65535).then(|| rri(by_imm, 3, 3, i64::from(n))));
                    for &first in &firsts {
                        for &second in &seconds {
                            let budget = rng.pick(&[LONG_RUN, 1_000_000, 2]);
                            let Some(twice) = last(run, &[first, second], state, budget) else { continue };
                            run.holds(twice == once, || {
                                format!(
                                    "{a:x} by {m} and then by {n}, {first:08x} {second:08x}: {twice:x?}, not {once:x?}"
                                )
                            });
                        }
                    }
                }
            }
        }
    }
    run.note(format!("{sums} pairs of amounts"));
}

/// Random programs with many shifts.
pub fn programs(run: &mut Run, rng: &mut Rng) {
    let profile = long::cut_programs(run, rng, Often::Shifts);
    run.note(format!("steps of the first 100: {}", profile.shifts()));
}
