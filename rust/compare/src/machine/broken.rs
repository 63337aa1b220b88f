//! The second program's machine with one slip: it is run one step at a time,
//! and the slip is put into the steps it concerns.

use super::case::{plain_state, second_state};
use super::reciprocals::LONG_RUN;
use crate::subject::{Part, Slip};
use kit::words::fields;
use merikohin::raw::{Ran, Stepped};
use merikohin::State;
use second::machine::{
    self, asr, leaf_value, lsl, lsr, recp, ASRI, CALL, DOT, LD, LSL, LSLI, LSR, LSRI, MULF, READ, RECP, SCRSET, ST,
    TREEIN, TREEVAL, WRITE,
};

pub fn run(slip: Slip, program: &[u32], data: &mut [u32], ram: &mut [u8], lent: State, allowed: u64) -> Ran {
    let given = second_state(&lent);
    let number = machine::run_number(program.len(), data.len(), ram.len(), &given);
    if number != 0 {
        return Ran { number, steps: 0, state: lent };
    }
    if slip.part() != Part::Machine {
        let ran = machine::run(program, data, ram, &given, allowed);
        return Ran { number: ran.number, steps: ran.steps, state: plain_state(&ran.state) };
    }
    let mut state = given;
    let mut steps = 0;
    while steps < allowed && state.halt == 0 {
        if slip == Slip::Idle && steps > 0 {
            steps = allowed;
            break;
        }
        let before = state;
        let word = program.get(before.place as usize).copied().unwrap_or(u32::MAX);
        let (opcode, r1, r2, r3, imm) = fields(word);
        let (v1, v2) = (before.registers[r1], before.registers[r2]);
        let in_tree = opcode == TREEIN || opcode == TREEVAL;
        let shifts = (LSL..=ASRI).contains(&opcode);
        let amount = if opcode >= LSLI { imm } else { before.registers[r3] };

        // The step itself, from a state that a slip may have changed.
        let mut entry = before;
        if slip == Slip::NewR1 && in_tree && r1 != 0 {
            entry.registers[r1] = leaf_value(v1, v2, 16);
        }
        let ran = machine::run(program, data, ram, &entry, 1);
        steps += ran.steps;
        state = ran.state;
        if ran.steps == 0 {
            // It halted.
            state = machine::State { halt: ran.state.halt, ..before };
            let address = before.registers[r2];
            let also_16 = address % 4 != 0 || u64::from(address) + 64 > ram.len() as u64;
            if slip == Slip::HaltOrder && state.halt == 15 && also_16 {
                state.halt = 16;
            }
            continue;
        }

        match slip {
            Slip::DotSum if opcode == DOT => {
                let (first, second) = (v2 as usize, before.registers[r3] as usize);
                let product = |k: usize| i128::from(data[first + k] as i32) * i128::from(data[second + k] as i32);
                let sum: i128 = (0..4).map(product).sum();
                result(&mut state, r1, (sum >> 16) as u32);
            }
            Slip::MulfTowardZero if opcode == MULF => {
                let product = i64::from(v2 as i32) * i64::from(before.registers[r3] as i32);
                result(&mut state, r1, (product / 65536) as u32);
            }
            Slip::R0Flags if r1 == 0 && ((LD..=ASRI).contains(&opcode) && opcode != ST || opcode == DOT) => {
                (state.negative, state.zero) = (before.negative, before.zero);
            }
            Slip::NewR1 if in_tree && r1 != 0 => state.registers[r1] = leaf_value(v1, v2, 16),
            Slip::SameRegister if in_tree && r1 == r2 => state.registers[r1] = v1 << 16,
            Slip::OldDepth if opcode == TREEVAL => {
                if let (Some(old), Some(new)) = (before.tree, &mut state.tree) {
                    for (old, new) in old.leaves.iter().zip(&mut new.leaves) {
                        if let (Some(was), Some(is), true) = (old.depth, new.depth, word & 0xffff == 0) {
                            new.inside = old.inside && is <= was;
                            new.outside = old.outside || is > was;
                        }
                    }
                }
            }
            Slip::TreeKept if opcode == SCRSET => {
                state.tree = before.tree;
                if machine::ill_formed(ram.len(), &state) {
                    state.tree = None;
                }
            }
            Slip::LinkFirst if opcode == CALL && r2 == 31 => {
                state.place = state.place.wrapping_sub(v2).wrapping_add(before.place + 1);
            }
            Slip::TransferFlags if opcode == READ || opcode == WRITE => {
                state.zero = false;
            }
            Slip::TableFlags if opcode == RECP && allowed >= LONG_RUN && (1..=512).contains(&v2) => {
                (state.negative, state.zero) = (before.negative, before.zero);
            }
            _ if opcode == RECP && allowed >= LONG_RUN => result(&mut state, r1, looked_up(slip, v2)),
            Slip::ShiftFlags if shifts && amount >= 32 => {
                (state.negative, state.zero) = (before.negative, before.zero);
            }
            Slip::ShiftLongRuns if allowed < LONG_RUN => {}
            _ if shifts => result(&mut state, r1, shifted(slip, opcode, v2, amount)),
            _ => {}
        }
    }
    Ran { number: 0, steps, state: plain_state(&state) }
}

/// A step by itself, with the slips of a step and of a run.
pub fn step(slip: Slip, program: &[u32], data: &mut [u32], ram: &mut [u8], lent: State) -> Stepped {
    let ran = run(slip, program, data, ram, lent, if slip == Slip::TwoSteps { 2 } else { 1 });
    let halting = slip == Slip::HaltingStep && ran.state.halt != lent.halt;
    Stepped { number: ran.number, carried_out: u32::from(ran.steps > 0 || halting), state: ran.state }
}

/// RECP by a table, with one slip.
fn looked_up(slip: Slip, operand: u32) -> u32 {
    let in_table = |operand: u32| (1..=512).contains(&operand);
    let (low, size) = (operand % 1024, operand.wrapping_neg());
    match slip {
        Slip::TableEntry if operand == 347 => recp(347) + 1,
        Slip::TableShifted if (1..=511).contains(&operand) => recp(operand + 1),
        Slip::Table512 if operand == 512 => 0,
        Slip::Table513 if operand == 513 => recp(512),
        Slip::TableZero if operand == 0 => 0,
        Slip::TableLowBits if in_table(low) => recp(low),
        Slip::TableSign if in_table(size) => recp(size),
        _ => recp(operand),
    }
}

/// A shift with one slip.
fn shifted(slip: Slip, opcode: u32, operand: u32, amount: u32) -> u32 {
    let by_imm = opcode >= LSLI;
    let taken = i128::from(match slip {
        Slip::ShiftFiveBits | Slip::ShiftLongRuns => amount % 32,
        Slip::ShiftSixBits => amount % 64,
        Slip::ShiftLowHalf => amount % 65536,
        Slip::ShiftSignedRegister if amount >= 1 << 31 => 0,
        Slip::ShiftSignedImm if by_imm && amount >= 1 << 15 => 0,
        Slip::Shift32 if amount == 32 => 0,
        Slip::ShiftCapped => amount.min(31),
        _ => amount,
    });
    match opcode {
        LSL | LSLI => lsl(operand, taken),
        LSR | LSRI if slip == Slip::LsrSign && amount >= 32 => asr(operand, taken),
        LSR | LSRI => lsr(operand, taken),
        _ if slip == Slip::AsrZero && amount >= 32 => 0,
        _ => asr(operand, taken),
    }
}

fn result(state: &mut machine::State, register: usize, value: u32) {
    if register != 0 {
        state.registers[register] = value;
    }
    state.negative = (value as i32) < 0;
    state.zero = value == 0;
}
