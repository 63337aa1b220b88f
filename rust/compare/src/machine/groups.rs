//! The machine's groups: both sides of every edge document 01 names for it.

use super::case::{mixed_word, second_state, with_regs, with_screen, with_tree, Case, DataFill, EXTREMES, FRESH};
use super::parts::{any_word, instruction, leaf_values, mark, register, screen_in, state_in, tree_on, yes};
use super::{long, reciprocals, samples, shifts, states};
use crate::case::Fill;
use crate::groups::{area, size, tight};
use crate::run::Run;
use kit::rng::Rng;
use kit::words::{fields, idle, rri, rrr, to};
use merikohin::raw::Ran;
use merikohin::{Screen, State};
use second::machine::*;

pub fn all(run: &mut Run) {
    run.group("01's table of words", table);
    // Every wrong table is caught here, and then every wrong shift, so that the
    // self-check goes no further.
    run.group("RECP, each operand", reciprocals::each);
    run.group("shifts, each amount", shifts::each);
    run.group("the fresh state", fresh_state);
    run.group("640 by 480 by SCRSET", full_size);
    run.group("places and program lengths", places);
    run.group("opcodes above 40", no_opcodes);
    run.group("LD and ST addresses", addresses);
    run.group("DOT at 1,020 and 1,021", dot_starts);
    run.group("READ and WRITE", transfers);
    run.group("SCRSET", screens);
    run.group("CLS", clears);
    run.group("TREESET", tree_places);
    run.group("no tree, and TREEVAL's imm", tree_uses);
    run.group("several halts at once", several_halts);
    run.group("lengths refused", states::lengths);
    run.group("states refused and taken", states::states);
    run.group("several refusals at once", states::several);
    run.group("each opcode", each_opcode);
    run.group("operands at the edges", operands);
    run.group("RECP, steps allowed", reciprocals::budgets);
    run.group("RECP, registers and flags", reciprocals::registers);
    run.group("RECP, counted and stored", reciprocals::counted);
    run.group("RECP, all of data memory", reciprocals::replaced);
    run.group("shifts by less than 32", shifts::below_32);
    run.group("shifts, registers and flags", shifts::registers);
    run.group("shifts, every imm", shifts::every_imm);
    run.group("shifts, counted and stored", shifts::counted);
    run.group("two shifts in turn", shifts::in_turn);
    run.group("R0, and one register twice", same_registers);
    run.group("flags and jumps", jumps);
    run.group("CALL", calls);
    run.group("marks", marks);
    run.group("depths and colours of leaves", leaves);
    run.group("stored depths", stored_depths);
    run.group("budgets", budgets);
    run.group("m steps, then n", splits);
    run.group("single steps, and one run", single_steps);
    run.group("matrix times vector", samples::matrix_times_vector);
    run.group("matrix times matrix", samples::matrix_times_matrix);
    run.group("rasterization loop", samples::rasterization);
    run.group("short random programs", short_programs);
    run.group("random programs with many RECPs", reciprocals::programs);
    run.group("random programs with many shifts", shifts::programs);
    run.group("long random programs", long::programs);
}

// ---------------------------------------------------------------------------
// Building blocks.
// ---------------------------------------------------------------------------

/// One step of one word, in a RAM of 256 bytes.
fn step(rng: &mut Rng, word: u32, state: State) -> Case {
    Case::one(vec![word], 256, rng.next(), state, 1)
}

/// A step that must be carried out, or halt with this number.
fn wants(run: &mut Run, case: &Case, halt: u32) -> Option<Ran> {
    run.machine_wants(case, 0, Some(u64::from(halt == 0)), Some(halt))
}

/// What a step's result is: the word in R3 and the two flags.
fn result(run: &mut Run, rng: &mut Rng, word: u32, regs: &[(u32, u32)], wanted: u32) {
    // The word itself has R3 for its target; the same with R0 only shows flags.
    for target in [3, 0] {
        let word = word & !(31 << 21) | target << 21;
        for flags in 0..4 {
            let state = State { negative: flags & 1, zero: flags >> 1, ..with_regs(regs) };
            let case = step(rng, word, state);
            if let Some(ran) = wants(run, &case, 0) {
                let seen = if target == 0 { wanted } else { ran.state.registers[3] };
                let flags = (u32::from(wanted >> 31 == 1), u32::from(wanted == 0));
                run.holds(seen == wanted && (ran.state.negative, ran.state.zero) == flags, || {
                    format!(
                        "{case}: wanted {wanted:x}, answered {seen:x}, flags {}, {}",
                        ran.state.negative, ran.state.zero
                    )
                });
            }
        }
    }
}

/// A run of a program that touches neither memory, and its first two single
/// steps.
pub fn one_run(program: Vec<u32>, state: State, budget: u64) -> Case {
    let case = Case::one(program, 0, 0, state, budget);
    Case { data_fill: DataFill::Word(7), singly: 2, ..case }
}

/// The program's last word gives this result and its flags. Every word is
/// carried out, and with more steps than words the run halts behind it.
pub fn gives(run: &mut Run, case: &Case, wanted: u32) {
    let length = case.program.len();
    let halt = if case.runs[0] > length as u64 { 12 } else { 0 };
    let Some(ran) = run.machine_wants(case, 0, Some(length as u64), Some(halt)) else { return };
    let (_, r1, ..) = fields(case.program[length - 1]);
    let kept = if r1 == 0 { 0 } else { wanted };
    let seen = (ran.state.registers[r1], ran.state.negative, ran.state.zero);
    run.holds(seen == (kept, wanted >> 31, u32::from(wanted == 0)), || {
        format!("{case}: wanted {wanted:x}, answered, with the two flags, {seen:x?}")
    });
}

/// A screen of 16 by 4 in 256 bytes.
fn small_screen() -> Screen {
    tight(size(1, 4)).0
}

// ---------------------------------------------------------------------------
// 01, "Both sides of each edge", and single rules.
// ---------------------------------------------------------------------------

/// "MULF of -1 and 1 is -1. ASR of -3 by 1 is -2. RECP of 2 is 1073741823; of
/// -1 is -2147483647; of -2147483648 is 0. DOT of four 1s with four 32768s is 0.
/// LI of R0 with imm 0x8000 is -32768. 0x80000000 minus 1 is 0x7FFFFFFF,
/// negative flag clear."
fn table(run: &mut Run, rng: &mut Rng) {
    let minus = |n: u32| n.wrapping_neg();
    result(run, rng, rrr(MULF, 3, 1, 2), &[(1, minus(1)), (2, 1)], minus(1));
    result(run, rng, rrr(MULF, 3, 2, 1), &[(1, minus(1)), (2, 1)], minus(1));
    result(run, rng, rrr(ASR, 3, 1, 2), &[(1, minus(3)), (2, 1)], minus(2));
    result(run, rng, rri(ASRI, 3, 1, 1), &[(1, minus(3))], minus(2));
    result(run, rng, rrr(RECP, 3, 1, 0), &[(1, 2)], 1073741823);
    result(run, rng, rrr(RECP, 3, 1, 0), &[(1, minus(1))], minus(2147483647));
    result(run, rng, rrr(RECP, 3, 1, 0), &[(1, 1 << 31)], 0);
    result(run, rng, rrr(RECP, 3, 1, 0), &[(1, 0)], 2147483647);
    result(run, rng, rrr(RECP, 3, 0, 0), &[], 2147483647);
    result(run, rng, rri(LI, 3, 0, 0x8000), &[], minus(32768));
    result(run, rng, rri(LI, 3, 0, 0x7fff), &[], 32767);
    result(run, rng, rrr(SUB, 3, 1, 2), &[(1, 1 << 31), (2, 1)], 0x7fff_ffff);
    result(run, rng, rrr(SUB, 3, 1, 2), &[(1, 5), (2, 7)], minus(2));
    // "Adding four products before the shift in DOT: 2 in the case above."
    for (a, b, wanted) in [(1u32, 32768u32, 0u32), (1, 65536, 4), (minus(1), 32768, minus(4)), (3, 65535, 8)] {
        let case = step(rng, rrr(DOT, 3, 1, 2), with_regs(&[(1, 0), (2, 4)]));
        let case = case.with_words(0, &[a, a, a, a, b, b, b, b]);
        if let Some(ran) = wants(run, &case, 0) {
            let flags = (u32::from(wanted >> 31 == 1), u32::from(wanted == 0));
            let seen = (ran.state.registers[3], (ran.state.negative, ran.state.zero));
            run.holds(seen == (wanted, flags), || format!("{case}: answered {seen:?}, wanted {wanted}"));
        }
    }
}

/// "A fresh state has place 0, registers 0, flags clear, no screen, no tree,
/// halt 0."
fn fresh_state(run: &mut Run, rng: &mut Rng) {
    let fresh = run.subject.fresh();
    run.holds(fresh.registers == [0; 32], || format!("the fresh registers are {:?}", fresh.registers));
    run.holds(fresh.place == 0, || format!("the fresh place is {}", fresh.place));
    run.holds((fresh.negative, fresh.zero) == (0, 0), || "a fresh flag is set".to_string());
    run.holds((fresh.has_screen, fresh.has_tree) == (0, 0), || "a fresh state has a screen or a tree".to_string());
    run.holds(fresh.halt == 0, || format!("the fresh halt number is {}", fresh.halt));
    // It runs as it should: nothing left of anything.
    run.machine_wants(&Case::one(Vec::new(), 0, rng.next(), fresh, 1), 0, Some(0), Some(12));
    run.machine_wants(&Case::one(vec![idle(0)], 0, rng.next(), fresh, 9), 0, Some(1), Some(12));
    let words = vec![rri(JEQ, 0, 0, 9), rri(JLT, 0, 0, 9), rrr(CLS, 0, 0, 0)];
    run.machine_wants(&Case::one(words, 64, rng.next(), fresh, 9), 0, Some(2), Some(17));
    run.machine_wants(&Case::one(vec![rrr(TREEPUT, 0, 0, 0)], 64, rng.next(), fresh, 9), 0, Some(0), Some(14));
}

/// "S = 20960 is 640 by 480."
fn full_size(run: &mut Run, rng: &mut Rng) {
    let (screen, ram) = tight(20960);
    let set = rri(SCRSET, 1, 2, 20960);
    // The last group of the last row, with colours and depths of its own.
    let program = vec![
        set,
        rrr(CLS, 3, 4, 0),
        rrr(TREESET, 5, 6, 7),
        rri(TREEVAL, 8, 9, 0),
        rri(TREEVAL, 8, 9, 1),
        rri(TREEVAL, 8, 9, 2),
        rri(TREEVAL, 8, 9, 3),
        rrr(TREEPUT, 0, 0, 0),
    ];
    let base =
        [(1, 0), (2, screen.depth_start), (3, 0x1234), (4, 0xfedc), (7, 0xffff), (8, 0x1234_5678), (9, 0x0001_0001)];
    let with = |column: u32, row: u32| {
        let mut regs = base.to_vec();
        regs.extend([(5, column), (6, row)]);
        with_regs(&regs)
    };
    let whole = |row: u32, column: u32, halt: u32, steps: u64| (row, column, halt, steps);
    for (row, column, halt, steps) in [
        whole(479, 624, 12, 8),
        whole(0, 0, 12, 8),
        whole(479, 640, 14, 2),
        whole(480, 624, 14, 2),
        whole(480, 640, 14, 2),
        whole(479, 639, 14, 2),
    ] {
        let case = Case::one(program.clone(), ram, rng.next(), with(column, row), 100);
        run.machine_wants(&case, 0, Some(steps), Some(halt));
    }
    // Every pixel was cleared, and the last sixteen were put.
    let case = Case::one(program.clone(), ram, rng.next(), with(624, 479), 100);
    if run.machine(&case).is_some() {
        let seen = run.machine_memories.subject_ram();
        let colours = seen[..ram / 2 - 32].chunks(2).filter(|pixel| **pixel == [0x12, 0x34]).count();
        let depths = seen[ram / 2..ram - 32].chunks(2).filter(|pixel| **pixel == [0xfe, 0xdc]).count();
        let put = seen[ram - 32..].chunks(2).filter(|pixel| **pixel != [0xfe, 0xdc]).count();
        run.holds((colours, depths, put) == (307_184, 307_184, 16), || {
            format!("640 by 480: {colours} colours and {depths} depths cleared, {put} depths put")
        });
    }
    // Sizes around it, and RAM of one byte less.
    for (imm, short, halt) in [(20960, 0, 12), (20961, 0, 17), (20959, 0, 12), (20960 + 512, 0, 17), (20960, 1, 17)] {
        let case = Case::one(vec![rri(SCRSET, 1, 2, imm)], ram - short, rng.next(), with(0, 0), 100);
        run.machine_wants(&case, 0, Some(u64::from(halt == 12)), Some(halt));
    }
}

/// 12: "place not below the program's length".
fn places(run: &mut Run, rng: &mut Rng) {
    for length in [0usize, 1, 2, 3, 16, 1022, 1023, 1024] {
        let l = length as u32;
        let mut list = vec![0, 1, 2, 3, 1022, 1023, 1024, 1025, 65535, 65536, 1 << 31, u32::MAX - 1023, u32::MAX];
        list.extend([l.wrapping_sub(2), l.wrapping_sub(1), l, l + 1, l + (1 << 16), l + (1 << 31)]);
        for place in list {
            let program: Vec<u32> = (0..length).map(|_| rrr(ADD, rng.between(0, 31) as u32, 1, 2)).collect();
            let mut state = state_in(rng, 256);
            state.place = place;
            let inside = place < l;
            let case = Case::one(program.clone(), 256, rng.next(), state, 1);
            let halt = if inside { 0 } else { 12 };
            if let Some(ran) = wants(run, &case, halt) {
                let next = if inside { place + 1 } else { place };
                run.holds(ran.state.place == next, || format!("{case}: place {}", ran.state.place));
            }
            // To the end and past it.
            let steps = u64::from(l.saturating_sub(place));
            let case = Case { runs: vec![5000], ..case };
            run.machine_wants(&case, 0, Some(steps), Some(12));
        }
    }
    // Jumps to the last word, one past it, and far away.
    for length in [1usize, 7, 1024] {
        for (target, halt) in [(length as i64 - 1, 0), (length as i64, 12), (length as i64 + 1, 12), (-1, 12)] {
            for opcode in [JMP, CALL] {
                let mut program: Vec<u32> = (0..length).map(idle).collect();
                program[0] = rri(opcode, 0, 0, target);
                let case = Case::one(program, 64, rng.next(), FRESH, 1);
                run.machine_wants(&case, 0, Some(1), Some(0));
                let case = Case { runs: vec![1, 1], ..case };
                run.machine_wants(&case, 0, Some(u64::from(halt == 0)), Some(halt));
            }
        }
    }
}

/// 11: "opcode above 40".
fn no_opcodes(run: &mut Run, rng: &mut Rng) {
    for opcode in 41..64 {
        for turn in 0..60 {
            let word = opcode << 26 | if turn == 0 { 0 } else { rng.next() as u32 & 0x03ff_ffff };
            let state = state_in(rng, 256);
            wants(run, &step(rng, word, state), 11);
        }
    }
    // 40 is one.
    for _ in 0..60 {
        let screen = screen_in(rng, 256).expect("one fits");
        let state = with_tree(with_screen(state_in(rng, 256), screen), tree_on(rng, screen));
        let word = TREEPUT << 26 | rng.next() as u32 & 0x03ff_ffff;
        wants(run, &step(rng, word, state), 0);
    }
}

/// 13: "LD, ST address above 1,023"; "Address means r2 plus imm sign-extended
/// from 16 bits, modulo 2^32."
fn addresses(run: &mut Run, rng: &mut Rng) {
    let list = [
        0u32,
        1,
        2,
        511,
        512,
        1020,
        1021,
        1022,
        1023,
        1024,
        1025,
        2047,
        2048,
        32767,
        32768,
        65535,
        65536,
        65536 + 1023,
        (1 << 31) - 1,
        1 << 31,
        (1 << 31) + 1023,
        u32::MAX - 1024,
        u32::MAX - 1023,
        u32::MAX - 1,
        u32::MAX,
    ];
    let imms = [0i64, 1, -1, 2, -2, 100, 1023, -1023, 1024, -1024, 0x7fff, -0x7fff, -0x8000];
    for opcode in [LD, ST] {
        for address in list {
            let halt = if address > 1023 { 13 } else { 0 };
            for imm in imms {
                let base = address.wrapping_sub(imm as u32);
                for (r1, r2) in [(3, 4), (0, 4), (4, 4)] {
                    let mut state = state_in(rng, 256);
                    state.registers[4] = base;
                    wants(run, &step(rng, rri(opcode, r1, r2, imm), state), halt);
                }
            }
            // R0 as the base: only what imm alone can say.
            if address as u16 as i16 as u32 == address {
                for r1 in [0, 3] {
                    let state = state_in(rng, 256);
                    wants(run, &step(rng, rri(opcode, r1, 0, i64::from(address)), state), halt);
                }
            }
        }
    }
}

/// 13: "a DOT start above 1,020"; "DOT at 1,020 runs, at 1,021 halts."
fn dot_starts(run: &mut Run, rng: &mut Rng) {
    let starts = [
        0u32,
        1,
        2,
        3,
        4,
        1016,
        1017,
        1019,
        1020,
        1021,
        1022,
        1023,
        1024,
        1 << 31,
        u32::MAX - 3,
        u32::MAX - 2,
        u32::MAX,
    ];
    for first in starts {
        for second in starts {
            let halt = if first > 1020 || second > 1020 { 13 } else { 0 };
            for r1 in [0, 3, 4, 5] {
                let mut state = state_in(rng, 256);
                (state.registers[4], state.registers[5]) = (first, second);
                wants(run, &step(rng, rrr(DOT, r1, 4, 5), state), halt);
            }
        }
        // R0 for one start or both, and one register for both.
        let halt = if first > 1020 { 13 } else { 0 };
        for (r2, r3) in [(0, 4), (4, 0), (4, 4)] {
            let mut state = state_in(rng, 256);
            state.registers[4] = first;
            wants(run, &step(rng, rrr(DOT, 3, r2, r3), state), halt);
        }
        wants(run, &step(rng, rrr(DOT, 3, 0, 0), FRESH), 0);
    }
    // Four words at the edges in every place.
    for _ in 0..2000 {
        let (first, second) = (rng.between(0, 1020) as usize, rng.between(0, 1020) as usize);
        let words = |rng: &mut Rng| [(); 4].map(|()| if rng.chance(2) { rng.pick(&EXTREMES) } else { mixed_word(rng) });
        let case = step(rng, rrr(DOT, 3, 1, 2), with_regs(&[(1, first as u32), (2, second as u32)]));
        let case = case.with_words(second, &words(rng)).with_words(first, &words(rng));
        wants(run, &case, 0);
    }
}

/// 15: "READ, WRITE data address above 1,008"; 16: "their RAM address not a
/// multiple of 4, or its 64 bytes not all in RAM".
fn transfers(run: &mut Run, rng: &mut Rng) {
    let data = [0u32, 1, 15, 16, 1007, 1008, 1009, 1010, 1023, 1024, 1 << 31, u32::MAX - 15, u32::MAX];
    let halt = |data: u32, at: u32, ram: usize| {
        if data > 1008 {
            15
        } else if !at.is_multiple_of(4) || u64::from(at) + 64 > ram as u64 {
            16
        } else {
            0
        }
    };
    for ram in [0usize, 1, 3, 4, 60, 63, 64, 65, 66, 67, 68, 72, 127, 128, 131, 132, 256] {
        let end = ram as u32;
        let mut list = vec![0, 1, 2, 3, 4, 5, 8, 60, 61, 62, 64, 68, 1 << 22, 1 << 31];
        for back in [63, 64, 65, 66, 67, 68, 60, 4, 0] {
            list.extend([end.wrapping_sub(back), 0u32.wrapping_sub(back)]);
        }
        list.sort();
        list.dedup();
        for opcode in [READ, WRITE] {
            for &at in &list {
                for data in data {
                    let mut state = state_in(rng, ram);
                    (state.registers[4], state.registers[5]) = (data, at);
                    let word = rrr(opcode, 4, 5, 0) | rng.next() as u32 & 0xffff;
                    wants(run, &Case::one(vec![word], ram, rng.next(), state, 1), halt(data, at, ram));
                }
                // One register for both, and R0 for one or both.
                for (r1, r2) in [(5, 5), (0, 5), (5, 0), (0, 0)] {
                    let mut state = state_in(rng, ram);
                    state.registers[5] = at;
                    let (data, from) = (state.registers[r1 as usize], state.registers[r2 as usize]);
                    let case = Case::one(vec![rrr(opcode, r1, r2, 9)], ram, rng.next(), state, 1);
                    wants(run, &case, halt(data, from, ram));
                }
            }
        }
    }
    // The longest RAM.
    let ram = 4_194_304usize;
    for opcode in [READ, WRITE] {
        for at in [0, ram - 128, ram - 64, ram - 63, ram - 60, ram - 4, ram, ram + 4] {
            let state = with_regs(&[(4, 1008), (5, at as u32)]);
            let case = Case::one(vec![rrr(opcode, 4, 5, 0)], ram, rng.next(), state, 1);
            wants(run, &case, halt(1008, at as u32, ram));
        }
    }
    // "words and half-words big-endian", there and back.
    let words: Vec<u32> = (0..16u32).map(|k| 0x0102_0304 * (k + 1)).collect();
    let program = vec![rrr(WRITE, 1, 2, 0), rrr(READ, 3, 2, 0)];
    let case = Case::one(program, 256, rng.next(), with_regs(&[(1, 100), (2, 64), (3, 200)]), 2);
    let case = case.with_words(100, &words);
    if run.machine_wants(&case, 0, Some(2), Some(0)).is_some() {
        let bytes: Vec<u8> = words.iter().flat_map(|word| word.to_be_bytes()).collect();
        let memories = &run.machine_memories;
        let holds = memories.subject_ram()[64..128] == bytes && memories.subject_data()[200..216] == words;
        run.holds(holds, || "WRITE, then READ: not the same sixteen words, big-endian in RAM".to_string());
    }
    // Inside a screen and under a tree.
    for _ in 0..2000 {
        let ram = rng.pick(&[128usize, 256, 300, 512]);
        let mut state = state_in(rng, ram);
        let mut program = Vec::new();
        for _ in 0..4 {
            let opcode = rng.pick(&[READ, WRITE, TREEPUT, TREEVAL]);
            program.push(instruction(rng, opcode, &mut state, ram));
        }
        run.machine(&Case::one(program, ram, rng.next(), state, 4));
    }
}

/// 17: "SCRSET to a screen not sound"; "it drops the tree."
fn screens(run: &mut Run, rng: &mut Rng) {
    let set = |run: &mut Run, rng: &mut Rng, ram: usize, asked: Screen, sound: bool| {
        for kept in [false, true] {
            let mut state = state_in(rng, ram);
            if kept {
                // A screen and a tree before it, where RAM has room for one.
                if let Some(screen) = screen_in(rng, ram) {
                    state = with_tree(with_screen(state, screen), tree_on(rng, screen));
                }
            }
            (state.registers[1], state.registers[2]) = (asked.colour_start, asked.depth_start);
            let case = Case::one(vec![rri(SCRSET, 1, 2, i64::from(asked.size_number))], ram, rng.next(), state, 1);
            if let Some(ran) = wants(run, &case, if sound { 0 } else { 17 }) {
                let holds = if sound {
                    (ran.state.has_screen, ran.state.screen, ran.state.has_tree) == (1, asked, 0)
                } else {
                    let mut same = second_state(&state);
                    same.halt = 17;
                    second_state(&ran.state) == same
                };
                run.holds(holds, || format!("{case}: answered {:?}", ran.state));
            }
        }
    };
    // Every size in range or not that imm can say: the borders of both parts.
    for groups in [0u32, 1, 2, 39, 40, 41, 42, 63, 64, 65, 127] {
        for height in [0u32, 1, 2, 479, 480, 481, 511] {
            let s = size(groups, height);
            let fits = (1..=40).contains(&groups) && (1..=480).contains(&height);
            set(run, rng, 1_400_000, Screen { colour_start: 0, depth_start: 700_000, size_number: s }, fits);
            set(run, rng, 128, Screen { colour_start: 0, depth_start: 64, size_number: s }, fits && area(s) <= 64);
        }
    }
    // Starts and RAM lengths around both areas.
    for (groups, height) in [(1, 1), (1, 4), (2, 3), (40, 1)] {
        let s = size(groups, height);
        let a = area(s);
        let tops = [0u32.wrapping_sub(a), 0u32.wrapping_sub(2), u32::MAX, 1 << 31, (1u32 << 31).wrapping_sub(a)];
        let mut starts = vec![0, 1, 2, 3, a - 2, a - 1, a, a + 1, a + 2, 2 * a - 2, 2 * a, 2 * a + 2];
        starts.extend(tops);
        for ram in [2 * a as usize - 2, 2 * a as usize - 1, 2 * a as usize, 2 * a as usize + 1, 2 * a as usize + 2] {
            for &colour in &starts {
                for &depth in &starts {
                    let fits = |start: u32| start % 2 == 0 && u64::from(start) + u64::from(a) <= ram as u64;
                    let apart = colour.abs_diff(depth) >= a;
                    set(
                        run,
                        rng,
                        ram,
                        Screen { colour_start: colour, depth_start: depth, size_number: s },
                        fits(colour) && fits(depth) && apart,
                    );
                }
            }
        }
    }
    // The longest RAM, at its very end.
    let (a, ram) = (area(20960), 4_194_304u32);
    for (colour, depth, fits) in [
        (ram - a, ram - 2 * a, true),
        (ram - 2 * a, ram - a, true),
        (ram - a + 2, 0, false),
        (0, ram - a + 2, false),
        (ram - a, ram - 2 * a + 2, false),
    ] {
        set(run, rng, ram as usize, Screen { colour_start: colour, depth_start: depth, size_number: 20960 }, fits);
    }
    // The same register for both starts.
    for value in [0, 32, 64] {
        let case = Case::one(vec![rri(SCRSET, 1, 1, 513)], 256, rng.next(), with_regs(&[(1, value)]), 1);
        wants(run, &case, 17);
    }
    // R0 for one of them.
    for (r1, r2, value, halt) in [(0, 1, 32, 0), (1, 0, 32, 0), (0, 1, 30, 17), (1, 0, 30, 17), (0, 0, 32, 17)] {
        let case = Case::one(vec![rri(SCRSET, r1, r2, 513)], 256, rng.next(), with_regs(&[(1, value)]), 1);
        wants(run, &case, halt);
    }
}

/// "CLS fills colour with the low half of r1 and depth with that of r2"; 17:
/// "CLS or TREESET with none".
fn clears(run: &mut Run, rng: &mut Rng) {
    for _ in 0..1000 {
        let ram = rng.pick(&[64usize, 65, 128, 200, 256, 1000, 4000]);
        let mut state = state_in(rng, ram);
        let word = instruction(rng, CLS, &mut state, ram);
        let halt = if state.has_screen == 0 { 17 } else { 0 };
        wants(run, &Case::one(vec![word], ram, rng.next(), state, 1), halt);
    }
    for (colour, depth) in [(0x1234_5678, 0x9abc_def0), (0xffff_0000, 0x0000_ffff), (u32::MAX, 0), (1 << 16, 1 << 31)] {
        let state = with_screen(with_regs(&[(1, colour), (2, depth)]), small_screen());
        let case = Case::one(vec![rrr(CLS, 1, 2, 0)], 256, rng.next(), state, 1);
        if wants(run, &case, 0).is_some() {
            let seen = run.machine_memories.subject_ram();
            let all = |part: &[u8], value: u32| part.chunks(2).all(|pixel| pixel == (value as u16).to_be_bytes());
            let holds = all(&seen[..128], colour) && all(&seen[128..], depth);
            run.holds(holds, || format!("{case}: not cleared to the low halves"));
        }
    }
}

/// 14: "TREESET place refused"; "r1 is the column, a multiple of 16 below the
/// width; r2 the row, below the height; r3 a mask, bit 15 for leaf 0, bit 0 for
/// leaf 15, higher bits ignored."
fn tree_places(run: &mut Run, rng: &mut Rng) {
    for (groups, height) in [(1u32, 1u32), (1, 4), (2, 3), (3, 2), (40, 1), (1, 480), (40, 480)] {
        let (screen, ram) = tight(size(groups, height));
        let w = groups * 16;
        let mut columns = vec![0, 1, 4, 8, 15, 16, 17, 24, 31, 32, 33, 624, 639, 640, 656, 65536, 65552];
        columns.extend([w.wrapping_sub(32), w.wrapping_sub(17), w - 16, w - 15, w - 8, w - 1, w, w + 1, w + 16]);
        columns.extend([1 << 31, (1 << 31) + 16, u32::MAX - 15, u32::MAX]);
        let mut rows = vec![0, 1, height - 1, height, height + 1, 479, 480, 511, 512, 65536, 1 << 31, u32::MAX];
        columns.sort();
        columns.dedup();
        rows.sort();
        rows.dedup();
        // One RAM of this length is enough for all of them: all in one case.
        let big = ram > 100_000;
        for &column in &columns {
            for &row in &rows {
                if big && rng.chance(2) && column < w && row < height {
                    continue;
                }
                let fits = column % 16 == 0 && column < w && row < height;
                let ram = if big { ram } else { ram + (rng.next() % 3) as usize };
                let state = with_screen(state_in(rng, if big { 0 } else { ram }), screen);
                let mut state = State { has_tree: 0, ..state };
                if rng.chance(2) {
                    state = with_tree(state, tree_on(rng, screen));
                }
                (state.registers[1], state.registers[2], state.registers[3]) = (column, row, rng.next() as u32);
                let mut case = Case::one(vec![rrr(TREESET, 1, 2, 3)], ram, rng.next(), state, 1);
                if big {
                    case.fill = Fill::Byte(0x5a);
                }
                wants(run, &case, if fits { 0 } else { 14 });
            }
        }
    }
    // Masks: each bit alone, all but one, higher bits.
    let mut masks = vec![0, 0xffff, 0xffff_0000, u32::MAX, 0x8000_0000, 0x0001_0000, 0x1234_8001, 0xffff_7ffe];
    masks.extend((0..32).map(|bit| 1u32 << bit));
    masks.extend((0..32).map(|bit| !(1u32 << bit)));
    for mask in masks {
        let state = with_screen(with_regs(&[(1, 0), (2, 3), (3, mask)]), small_screen());
        let case = Case::one(vec![rrr(TREESET, 1, 2, 3)], 256, rng.next(), state, 1);
        if let Some(ran) = wants(run, &case, 0) {
            let tree = ran.state.tree;
            let bits: [u8; 16] = std::array::from_fn(|k| (mask >> (15 - k) & 1) as u8);
            let holds = tree.inside == bits && tree.outside == bits.map(|bit| 1 - bit);
            let holds = holds && tree.colour == [0; 16] && (tree.has_depth, tree.column, tree.row) == (0, 0, 3);
            run.holds(holds && ran.state.has_tree == 1, || format!("{case}: answered {:?}", ran.state));
        }
    }
    // One register for column and row, or for all three; R0 for each.
    for (r1, r2, r3) in [(1, 1, 2), (1, 1, 1), (0, 1, 2), (1, 0, 2), (1, 2, 0), (0, 0, 0), (0, 0, 1)] {
        for value in [0, 1, 3, 4, 16, 32] {
            let (screen, ram) = tight(size(2, 20));
            let state = with_screen(with_regs(&[(1, value), (2, 5)]), screen);
            run.machine(&Case::one(vec![rrr(TREESET, r1, r2, r3)], ram, rng.next(), state, 1));
        }
    }
}

/// 14: "TREEIN, TREEVAL, TREEPUT with no tree; TREEVAL imm above 3".
fn tree_uses(run: &mut Run, rng: &mut Rng) {
    let imms = [0u32, 1, 2, 3, 4, 5, 7, 8, 15, 16, 255, 256, 257, 259, 0x4000, 0x7fff, 0x8000, 0x8001, 0xfffc, 0xffff];
    for planted in [false, true] {
        for shown in [false, true] {
            if planted && !shown {
                continue;
            }
            for _ in 0..40 {
                let mut state = State { has_screen: 0, has_tree: 0, ..state_in(rng, 256) };
                if shown {
                    state = with_screen(state, screen_in(rng, 256).expect("one fits"));
                }
                if planted {
                    state = with_tree(state, tree_on(rng, state.screen));
                }
                let halt = if planted { 0 } else { 14 };
                for opcode in [TREEIN, TREEPUT] {
                    let word = opcode << 26 | rng.next() as u32 & 0x03ff_ffff;
                    wants(run, &step(rng, word, state), halt);
                }
                for imm in imms {
                    let word = rri(TREEVAL, register(rng), register(rng), i64::from(imm));
                    wants(run, &step(rng, word, state), if imm > 3 { 14 } else { halt });
                }
            }
        }
    }
    // "SCRSET ... drops the tree": what follows it halts.
    for opcode in [TREEIN, TREEVAL, TREEPUT] {
        let screen = small_screen();
        let mut state = with_tree(with_screen(FRESH, screen), tree_on(rng, screen));
        (state.registers[1], state.registers[2]) = (screen.colour_start, screen.depth_start);
        let program = vec![rri(SCRSET, 1, 2, i64::from(screen.size_number)), rrr(opcode, 3, 4, 0)];
        run.machine_wants(&Case::one(program, 256, rng.next(), state, 9), 0, Some(1), Some(14));
        // A CLS, a READ and a WRITE do not.
        for other in [rrr(CLS, 3, 4, 0), rrr(READ, 0, 0, 0), rrr(WRITE, 0, 0, 0)] {
            let program = vec![other, rrr(opcode, 3, 4, 0)];
            run.machine_wants(&Case::one(program, 256, rng.next(), state, 9), 0, Some(2), Some(12));
        }
    }
}

/// "The first row that applies wins. A halting step changes only the halt
/// number and is not counted."
fn several_halts(run: &mut Run, rng: &mut Rng) {
    let nothing = |rng: &mut Rng| State { has_screen: 0, has_tree: 0, ..state_in(rng, 256) };
    for _ in 0..50 {
        // 15 before 16.
        for opcode in [READ, WRITE] {
            for data in [1009, 1024, u32::MAX] {
                for at in [1, 2, 196, 256, u32::MAX, u32::MAX - 3, 0u32.wrapping_sub(64)] {
                    let mut state = nothing(rng);
                    (state.registers[1], state.registers[2]) = (data, at);
                    wants(run, &step(rng, rrr(opcode, 1, 2, 0), state), 15);
                    state.registers[1] = 1008;
                    wants(run, &step(rng, rrr(opcode, 1, 2, 0), state), 16);
                }
            }
        }
        // 17 before 14: no screen, whatever the place.
        for (column, row) in [(0, 0), (1, 0), (0, 480), (640, 480), (u32::MAX, u32::MAX)] {
            let mut state = nothing(rng);
            (state.registers[1], state.registers[2]) = (column, row);
            wants(run, &step(rng, rrr(TREESET, 1, 2, 3), state), 17);
        }
        // No tree and an imm above 3.
        let state = nothing(rng);
        wants(run, &step(rng, rri(TREEVAL, 1, 2, 4), state), 14);
        wants(run, &step(rng, rri(TREEVAL, 1, 2, -1), state), 14);
        // Column and row refused.
        let mut state = with_screen(nothing(rng), small_screen());
        (state.registers[1], state.registers[2]) = (16, 4);
        wants(run, &step(rng, rrr(TREESET, 1, 2, 3), state), 14);
        // 12 before all: there is no word at the place.
        let word = rng.next() as u32;
        let state = State { place: rng.pick(&[1, 2, 1023, 1024, u32::MAX]), ..nothing(rng) };
        wants(run, &step(rng, word, state), 12);
        // 11 whatever the fields say.
        let state = state_in(rng, 256);
        let opcode = rng.between(41, 63) as u32;
        wants(run, &step(rng, opcode << 26 | word & 0x03ff_ffff, state), 11);
    }
    // Every way to halt, in the middle of a run: only the halt number changes,
    // and running on changes nothing.
    for _ in 0..2000 {
        let ram = rng.pick(&[0usize, 64, 100, 256]);
        let mut state = state_in(rng, ram);
        let opcode = rng.between(0, 63) as u32;
        let word = opcode << 26 | rng.next() as u32 & 0x03ff_ffff;
        state.place = 2;
        let mut case = Case::one(vec![idle(0), idle(1), word], ram, rng.next(), state, 1);
        case.runs = vec![1, 0, 1, 7];
        if let Some(answers) = run.machine(&case) {
            if answers[0].steps == 0 {
                let mut same = second_state(&state);
                same.halt = answers[0].state.halt;
                let stays = answers.iter().all(|ran| ran.steps == 0 && second_state(&ran.state) == same);
                run.holds(stays && same.halt != 0, || format!("{case}: a halt changed more than its number"));
            }
        }
    }
}

// ---------------------------------------------------------------------------
// Opcodes and operands.
// ---------------------------------------------------------------------------

/// Each of the 41 opcodes from many states, with any registers.
fn each_opcode(run: &mut Run, rng: &mut Rng) {
    let (mut done, mut halted) = ([0u64; 41], [0u64; 41]);
    for opcode in 0..=40u32 {
        for _ in 0..2000 {
            let ram = rng.pick(&[0usize, 63, 64, 65, 128, 200, 256, 256, 400, 512, 1000]);
            let mut state = state_in(rng, ram);
            let word = instruction(rng, opcode, &mut state, ram);
            let length = rng.between(1, 4) as usize;
            let mut program: Vec<u32> = (0..length).map(|_| any_word(rng)).collect();
            state.place = rng.between(0, length as i64 - 1) as u32;
            program[state.place as usize] = word;
            if let Some(answers) = run.machine(&Case::one(program, ram, rng.next(), state, 1)) {
                done[opcode as usize] += answers[0].steps;
                halted[opcode as usize] += 1 - answers[0].steps;
            }
        }
    }
    let least = done.iter().min().copied().unwrap_or(0);
    let sums = (done.iter().sum::<u64>(), halted.iter().sum::<u64>());
    run.note(format!("{} steps done, {} halted; each opcode done at least {least} times", sums.0, sums.1));
}

/// Every two words at the edges, for each opcode that works out a word.
fn operands(run: &mut Run, rng: &mut Rng) {
    for opcode in (ADD..=ASR).filter(|opcode| ![RECP, NOT].contains(opcode)) {
        for a in EXTREMES {
            for b in EXTREMES {
                wants(run, &one_word(rrr(opcode, 3, 1, 2), with_regs(&[(1, a), (2, b)])), 0);
            }
        }
    }
    for a in EXTREMES {
        for b in EXTREMES {
            for opcode in [LI, LSLI, LSRI, ASRI] {
                wants(run, &one_word(rri(opcode, 3, 1, i64::from(b)), with_regs(&[(1, a)])), 0);
            }
        }
        wants(run, &one_word(rrr(NOT, 3, 1, 0), with_regs(&[(1, a)])), 0);
    }
    // RECP: every small operand, both signs; and powers of two.
    for n in (0..=2048).chain((0..32).flat_map(|bit| [(1u32 << bit).wrapping_sub(1), 1 << bit, (1 << bit) + 1])) {
        for a in [n, n.wrapping_neg()] {
            wants(run, &one_word(rrr(RECP, 3, 1, 0), with_regs(&[(1, a)])), 0);
        }
    }
    // MULF: products around whole numbers of 65,536.
    for _ in 0..4000 {
        let a = rng.between(1, 70_000);
        let b = (rng.between(-3, 3) * 65536 + rng.between(-2, 2)) / a + rng.between(-1, 1);
        let (a, b) = if rng.chance(2) { (a as u32, b as u32) } else { (b as u32, (-a) as u32) };
        wants(run, &one_word(rrr(MULF, 3, 1, 2), with_regs(&[(1, a), (2, b)])), 0);
    }
}

/// One step that touches neither memory.
fn one_word(word: u32, state: State) -> Case {
    let case = Case::one(vec![word], 0, 0, state, 1);
    Case { data_fill: DataFill::Word(7), ..case }
}

/// "R0 is always 0, and a write to it is lost"; r1 = r2, r1 = r3, r2 = r3.
fn same_registers(run: &mut Run, rng: &mut Rng) {
    for opcode in 0..=40u32 {
        for registers in
            [(0, 1, 2), (0, 0, 1), (0, 1, 0), (0, 0, 0), (1, 1, 2), (1, 2, 1), (1, 2, 2), (1, 1, 1), (31, 31, 31)]
        {
            for _ in 0..12 {
                let (n1, n2, n3) = registers;
                let mut state = with_screen(state_in(rng, 256), small_screen());
                state = with_tree(state, tree_on(rng, state.screen));
                // Small numbers fit every address.
                for k in [1, 2, 31] {
                    let any = mixed_word(rng);
                    state.registers[k] = rng.pick(&[0, 4, 64, 128, 192, any]);
                }
                let uses_imm = matches!(opcode, LD | ST | LI | LSLI..=JGEL | SCRSET | TREEVAL);
                let word = if uses_imm {
                    let imm = rng.pick(&[0, 1, 2, 3, 513, 516, 100]);
                    rri(opcode, n1, n2, imm)
                } else {
                    rrr(opcode, n1, n2, n3) | rng.next() as u32 & 0x7ff
                };
                if let Some(answers) = run.machine(&step(rng, word, state)) {
                    run.holds(answers[0].state.registers[0] == 0, || format!("R0 after {word:08x} is not 0"));
                }
            }
        }
    }
}

/// "JLT reads negative; JLE negative or zero; JGT neither; JGE not negative; JEQ
/// zero; JNE not zero. A jump goes to address ... a 'likely' form means the same
/// as the plain one (house)."
fn jumps(run: &mut Run, rng: &mut Rng) {
    let targets = [0u32, 1, 2, 3, 4, 1023, 1024, 65535, 65536, 1 << 31, u32::MAX - 1, u32::MAX];
    for opcode in JMP..=JGEL {
        for flags in 0..4u32 {
            let (negative, zero) = (flags & 1 != 0, flags & 2 != 0);
            let taken = match opcode {
                JMP | CALL => true,
                JEQ | JEQL => zero,
                JNE | JNEL => !zero,
                JLT | JLTL => negative,
                JLE | JLEL => negative || zero,
                JGT | JGTL => !(negative || zero),
                _ => !negative,
            };
            for target in targets {
                for imm in [0i64, 1, -1, 0x7fff, -0x8000] {
                    let mut state = state_in(rng, 64);
                    state.negative = if negative { yes(rng) } else { 0 };
                    state.zero = if zero { yes(rng) } else { 0 };
                    state.registers[1] = target.wrapping_sub(imm as u32);
                    state.place = rng.between(0, 3) as u32;
                    let place = state.place;
                    let word = rri(opcode, rng.between(0, 31) as u32, 1, imm);
                    let case = Case::one(vec![word; 4], 64, rng.next(), state, 1);
                    if let Some(ran) = wants(run, &case, 0) {
                        let next = if taken { target } else { place + 1 };
                        let same = (ran.state.negative, ran.state.zero) == (u32::from(negative), u32::from(zero));
                        run.holds(ran.state.place == next && same, || {
                            format!("{case}: wanted place {next}, answered {}", ran.state.place)
                        });
                    }
                    // What is there, or halt 12.
                    run.machine(&Case { runs: vec![1, 1, 1], ..case });
                }
            }
            // R0 as the base: 2^32 - 1 is imm -1.
            let state = State { negative: u32::from(negative), zero: u32::from(zero), ..FRESH };
            let case = Case::one(vec![rri(opcode, 0, 0, -1)], 64, rng.next(), state, 5);
            run.machine_wants(&case, 0, Some(1), Some(12));
        }
    }
    // Flags of each instruction that sets them, read by each jump.
    for opcode in (LD..=ASRI).chain([DOT]) {
        for target in [0, 3] {
            for _ in 0..40 {
                let mut state = state_in(rng, 64);
                let word = instruction(rng, opcode, &mut state, 64) & !(31 << 21) | target << 21;
                for jump in (JEQ..=JGE).step_by(2) {
                    let program = vec![word, to(jump, 3), idle(1), idle(2)];
                    run.machine(&Case::one(program, 64, rng.next(), state, 2));
                }
            }
        }
    }
}

/// "CALL puts the next place in R31 after address is worked out (house)."
fn calls(run: &mut Run, rng: &mut Rng) {
    for place in [0u32, 1, 500, 1022, 1023] {
        for base in [0u32, 1, 31, 30] {
            for value in [0u32, 1, 7, 1023, 1 << 31, u32::MAX] {
                for imm in [0i64, 1, -1, 1000] {
                    let mut state = state_in(rng, 64);
                    state.place = place;
                    state.registers[base as usize] = if base == 0 { 0 } else { value };
                    let address = state.registers[base as usize].wrapping_add(imm as u32);
                    let word = rri(CALL, rng.between(0, 31) as u32, base, imm);
                    let case = Case::one(vec![word; 1024], 64, rng.next(), state, 1);
                    if let Some(ran) = wants(run, &case, 0) {
                        let seen = (ran.state.place, ran.state.registers[31]);
                        run.holds(seen == (address, place + 1), || format!("{case}: place and R31 are {seen:?}"));
                    }
                }
            }
        }
    }
    // There and back, and a routine that calls another.
    let program = vec![
        to(CALL, 4),
        to(CALL, 4),
        to(CALL, 6),
        to(JMP, 11),
        rri(LI, 1, 1, 1),
        rri(JMP, 0, 31, 0),
        rrr(ADD, 2, 31, 0),
        to(CALL, 4),
        rrr(ADD, 31, 2, 0),
        rri(LI, 3, 3, -1),
        rri(JMP, 9, 31, 0),
    ];
    let case = Case::one(program, 0, rng.next(), FRESH, 100);
    if let Some(ran) = run.machine_wants(&case, 0, Some(15), Some(12)) {
        let seen = (ran.state.registers[1], ran.state.registers[2], ran.state.registers[3], ran.state.registers[31]);
        run.holds(seen == (3, 3, u32::MAX, 3), || format!("three calls left {seen:?}"));
    }
}

// ---------------------------------------------------------------------------
// 01, "The tree"
// ---------------------------------------------------------------------------

/// "TREEIN: a signed positive value clears I, a negative one sets O."
fn marks(run: &mut Run, rng: &mut Rng) {
    let screen = small_screen();
    for turn in 0..6000 {
        let (value, by) = leaf_values(rng);
        let mut tree = tree_on(rng, screen);
        if turn % 2 == 0 {
            // All four pairs of marks, four leaves each.
            tree.inside = std::array::from_fn(|k| if k % 2 == 0 { 0 } else { mark(rng) | 1 });
            tree.outside = std::array::from_fn(|k| if k / 2 % 2 == 0 { 0 } else { mark(rng) | 1 });
        }
        let (r1, r2) = rng.pick(&[(1, 2), (1, 2), (1, 2), (1, 1), (0, 2), (1, 0), (0, 0), (31, 30)]);
        let mut state = with_tree(with_screen(state_in(rng, 256), screen), tree);
        state.registers[r2] = by;
        state.registers[r1] = value;
        state.registers[0] = 0;
        let (value, by) = (state.registers[r1], state.registers[r2]);
        let word = rrr(TREEIN, r1 as u32, r2 as u32, 0) | rng.next() as u32 & 0xffff;
        let case = step(rng, word, state);
        if let Some(ran) = wants(run, &case, 0) {
            let mut holds = r1 == 0 || ran.state.registers[r1] == value.wrapping_add(by.wrapping_mul(16));
            for k in 0..16 {
                let leaf = value.wrapping_add(by.wrapping_mul(k as u32)) as i32;
                let inside = tree.inside[k] != 0 && leaf <= 0;
                let outside = tree.outside[k] != 0 || leaf < 0;
                holds &= (ran.state.tree.inside[k] != 0, ran.state.tree.outside[k] != 0) == (inside, outside);
            }
            run.holds(holds, || format!("{case}: answered {:?}", ran.state));
        }
    }
    // "TREEPUT writes each leaf with I = 1 or O = 0: its colour always, its
    // depth only if one is held. The tree stays."
    for turn in 0..2000 {
        let (screen, ram) = tight(size(2, 3));
        let mut tree = tree_on(rng, screen);
        tree.has_depth = if turn % 2 == 0 { yes(rng) } else { 0 };
        let state = with_tree(with_screen(state_in(rng, 0), screen), tree);
        let word = TREEPUT << 26 | rng.next() as u32 & 0x03ff_ffff;
        let case = Case::one(vec![word], ram, rng.next(), state, 1);
        let mut wanted = Vec::new();
        case.ram_at_first(&mut wanted);
        for k in 0..16 {
            if tree.inside[k] != 0 || tree.outside[k] == 0 {
                let at = ((tree.row * 32 + tree.column) as usize + k) * 2;
                wanted[at..at + 2].copy_from_slice(&tree.colour[k].to_be_bytes());
                if tree.has_depth != 0 {
                    let at = at + screen.depth_start as usize;
                    wanted[at..at + 2].copy_from_slice(&tree.depth[k].to_be_bytes());
                }
            }
        }
        if let Some(ran) = wants(run, &case, 0) {
            let mut same = second_state(&state);
            same.place += 1;
            let holds = second_state(&ran.state) == same && run.machine_memories.subject_ram() == wanted;
            run.holds(holds, || format!("{case}: not the leaves' pixels, or the tree did not stay"));
        }
    }
}

/// "TREEVAL 0 holds the top half as depth and, where it is above the stored
/// depth, clears I and sets O; 1, 2, 3 replace red, green, blue."
fn leaves(run: &mut Run, rng: &mut Rng) {
    for turn in 0..8000 {
        let (groups, height) = rng.pick(&[(1, 1), (1, 4), (2, 3), (4, 2)]);
        let (screen, ram) = tight(size(groups, height));
        let imm = turn % 4;
        let (value, by) = match rng.next() % 3 {
            // Around a bit of the top half, or any.
            0 => (rng.next() as u32, rng.between(-70_000, 70_000) as u32),
            1 => (
                (rng.between(0, 70) as u32) << 16 | rng.pick(&[0, 1, 0xffff]),
                rng.pick(&[0, 1, 65535, 65536, u32::MAX]),
            ),
            _ => leaf_values(rng),
        };
        let (r1, r2) = rng.pick(&[(1, 2), (1, 2), (1, 2), (1, 1), (0, 2), (1, 0)]);
        let tree = tree_on(rng, screen);
        let mut state = with_tree(with_screen(state_in(rng, 0), screen), tree);
        state.registers[r2] = by;
        state.registers[r1] = value;
        state.registers[0] = 0;
        let (value, by) = (state.registers[r1], state.registers[r2]);
        let case = Case::one(vec![rri(TREEVAL, r1 as u32, r2 as u32, imm)], ram, rng.next(), state, 1);
        let mut before = Vec::new();
        case.ram_at_first(&mut before);
        if let Some(ran) = wants(run, &case, 0) {
            let seen = ran.state.tree;
            let mut holds = r1 == 0 || ran.state.registers[r1] == value.wrapping_add(by.wrapping_mul(16));
            for k in 0..16 {
                let top = (value.wrapping_add(by.wrapping_mul(k as u32)) >> 16) as u16;
                let colour = tree.colour[k];
                holds &= match imm {
                    0 => {
                        let at =
                            screen.depth_start as usize + ((tree.row * groups * 16 + tree.column) as usize + k) * 2;
                        let stored = u16::from_be_bytes([before[at], before[at + 1]]);
                        let inside = tree.inside[k] != 0 && top <= stored;
                        let outside = tree.outside[k] != 0 || top > stored;
                        let marks = (seen.inside[k] != 0, seen.outside[k] != 0);
                        seen.has_depth == 1
                            && seen.depth[k] == top
                            && marks == (inside, outside)
                            && seen.colour[k] == colour
                    }
                    1 => seen.colour[k] == colour & 0x07ff | (top & 31) << 11,
                    2 => seen.colour[k] == colour & 0xf81f | (top & 63) << 5,
                    _ => seen.colour[k] == colour & 0xffe0 | top & 31,
                };
            }
            run.holds(holds, || format!("{case}: answered {:?}", ran.state));
        }
    }
}

/// "Judging TREEVAL's depth against the leaf's old depth and not the screen's";
/// "Taking depth as signed". The stored depth is that of the screen when TREEVAL
/// runs, whatever TREEPUT, CLS, WRITE did to it since TREESET.
fn stored_depths(run: &mut Run, rng: &mut Rng) {
    let edges = [0u32, 1, 255, 256, 32767, 32768, 65534, 65535];
    let screen = small_screen();
    for stored in edges {
        for first in edges {
            for second in edges {
                for between in 0..5 {
                    let mut program = vec![rrr(CLS, 1, 2, 0), rrr(TREESET, 0, 3, 4)];
                    program.push(rri(TREEVAL, 5, 0, 0));
                    match between {
                        0 => {}
                        1 => program.push(rrr(TREEPUT, 0, 0, 0)),
                        2 => program.push(rrr(CLS, 1, 7, 0)),
                        3 => program.push(rrr(WRITE, 8, 9, 0)),
                        _ => program.push(rrr(TREESET, 0, 3, 4)),
                    }
                    program.extend([rri(TREEVAL, 6, 0, 0), rri(TREEVAL, 10, 11, 1), rrr(TREEPUT, 0, 0, 0)]);
                    let (low, mask) = (rng.next() as u32 & 0xffff, rng.next() as u32);
                    let state = with_screen(
                        with_regs(&[
                            (1, 0x1234),
                            (2, stored),
                            (3, rng.between(0, 3) as u32),
                            (4, rng.pick(&[0xffff, 0xffff, 0x5555, mask])),
                            (5, first << 16 | low),
                            (6, second << 16 | low),
                            (7, rng.pick(&edges)),
                            (8, rng.between(0, 1008) as u32),
                            (9, 128 + 64 * rng.between(0, 1) as u32),
                            (10, mixed_word(rng)),
                            (11, mixed_word(rng)),
                        ]),
                        screen,
                    );
                    let steps = program.len() as u64;
                    let case = Case::one(program, 256, rng.next(), state, steps);
                    run.machine_wants(&case, 0, Some(steps), Some(0));
                }
            }
        }
    }
}

// ---------------------------------------------------------------------------
// Runs.
// ---------------------------------------------------------------------------

/// "A run takes a count of steps allowed and reports the steps carried out; it
/// stops only at that count or at a halt. ... A halted state runs 0 steps and
/// stays."
fn budgets(run: &mut Run, rng: &mut Rng) {
    // Endless loops: of one step, of two, of a few with a count.
    let endless = [
        vec![to(JMP, 0)],
        vec![to(CALL, 1), to(JMP, 0)],
        vec![rri(LI, 1, 1, 1), rrr(ADD, 2, 2, 1), to(JGEL, 0), to(JMP, 0)],
    ];
    for program in endless {
        for steps in [0u64, 1, 2, 3, 10, 255, 256, 257, 1000, 65535, 65536, 65537, 300_000] {
            let case = Case::one(program.clone(), 64, rng.next(), FRESH, steps);
            run.machine_wants(&case, 0, Some(steps), Some(0));
        }
    }
    // A budget of 0, from every kind of state: nothing at all.
    for _ in 0..500 {
        let state = state_in(rng, 256);
        let place = rng.pick(&[0, 1, 2, u32::MAX]);
        let case = Case::one(vec![any_word(rng), u32::MAX], 256, rng.next(), State { place, ..state }, 0);
        if let Some(ran) = run.machine_wants(&case, 0, Some(0), Some(0)) {
            let same = second_state(&ran.state) == second_state(&case.state);
            run.holds(same, || format!("{case}: 0 steps changed the state"));
        }
    }
    // A program that halts after so many steps, with budgets around that count
    // and far above it.
    for length in [0u64, 1, 2, 17, 1023, 1024] {
        let program: Vec<u32> =
            (0..length as usize).map(|at| if at % 3 == 0 { rri(LI, 1, 1, 1) } else { idle(at) }).collect();
        let mut budgets = vec![length, length + 1, length + 2, 1 << 31, (1 << 32) - 1, 1 << 32, (1 << 32) + 1];
        budgets.extend([1 << 33, 1 << 62, (1 << 63) - 1, 1 << 63, (1 << 63) + 1, u64::MAX - 1, u64::MAX]);
        budgets.extend(length.checked_sub(1));
        for budget in budgets {
            let case = Case::one(program.clone(), 64, rng.next(), FRESH, budget);
            let halt = if budget > length { 12 } else { 0 };
            run.machine_wants(&case, 0, Some(length.min(budget)), Some(halt));
            // Once more: a halted state stays, another goes on.
            run.machine(&Case { runs: vec![budget, budget, 0, 1], ..case });
        }
    }
    // A loop of many steps that halts in the end.
    let program = vec![rri(LI, 1, 0, 20_000), rri(LI, 1, 1, -1), to(JNE, 1), u32::MAX];
    for (budget, halt) in [(40_000, 0), (40_001, 0), (40_002, 11), (u64::MAX, 11)] {
        let case = Case::one(program.clone(), 0, rng.next(), FRESH, budget);
        run.machine_wants(&case, 0, Some(40_001.min(budget)), Some(halt));
    }
}

/// "Running m and then n steps ends as running m + n, where the sum fits, with
/// the counts added."
fn splits(run: &mut Run, rng: &mut Rng) {
    for turn in 0..3000 {
        let whole = if turn % 4 == 0 { short_program(rng) } else { long::program(rng).case };
        let total = match turn % 5 {
            0 => rng.between(0, 20) as u64,
            1 => rng.between(700, 4000) as u64,
            _ => rng.between(0, 700) as u64,
        };
        let any = rng.next() % (total + 1);
        let m = rng.pick(&[0, 1, total / 2, total, total.saturating_sub(1), any, any, any]).min(total);
        let mut parts = vec![m, total - m];
        if rng.chance(4) {
            // In ever so many parts.
            parts = vec![total / 7; 7];
            parts.push(total - total / 7 * 7);
        }
        in_parts(run, &whole, total, parts);
    }
}

/// So many steps of a program in one run, and in parts.
pub fn in_parts(run: &mut Run, whole: &Case, total: u64, parts: Vec<u64>) {
    let one = Case { runs: vec![total], ..whole.clone() };
    let Some(answers) = run.machine(&one) else { return };
    let (steps, state) = (answers[0].steps, second_state(&answers[0].state));
    let (data, ram) = (run.machine_memories.subject_data().to_vec(), run.machine_memories.subject_ram().to_vec());
    let split = Case { runs: parts, ..one };
    let Some(answers) = run.machine(&split) else { return };
    let sum: u64 = answers.iter().map(|ran| ran.steps).sum();
    let last = second_state(&answers[answers.len() - 1].state);
    let memories = &run.machine_memories;
    let holds = sum == steps && last == state && memories.subject_data() == data && memories.subject_ram() == ram;
    run.holds(holds, || format!("{split}: ends otherwise than one run of {total} steps"));
}

/// A run is single steps in turn: as many as it allows, and where it halts some
/// more. (Every case is also done by its first single steps.)
fn single_steps(run: &mut Run, rng: &mut Rng) {
    for turn in 0..1000 {
        let whole = if turn % 4 == 0 { short_program(rng) } else { long::program(rng).case };
        let total = if turn % 5 == 0 { rng.between(700, 4000) as u64 } else { rng.between(1, 700) as u64 };
        let any = rng.next() % (total + 1);
        let runs = if rng.chance(2) { vec![total] } else { vec![any, total - any] };
        run.machine(&Case { runs, singly: total, ..whole });
    }
}

/// A short program of mostly fitting instructions, made for its first state.
fn short_program(rng: &mut Rng) -> Case {
    let ram = rng.pick(&[0usize, 64, 128, 256, 300, 512, 1000]);
    let mut state = state_in(rng, ram);
    // Small numbers everywhere make more steps fit.
    for k in 1..32 {
        if rng.chance(2) {
            state.registers[k] = rng.pick(&[0, 4, 16, 64, 128, 192, 500, 1000]);
        }
    }
    let length = rng.between(1, 24);
    let mut program = Vec::new();
    for at in 0..length {
        // Jumps stay within the program, mostly.
        let opcode = rng.between(0, 40) as u32;
        let mut word = instruction(rng, opcode, &mut state, ram);
        if (JMP..=JGEL).contains(&opcode) && !rng.chance(8) {
            word = to(opcode, rng.between((at - 4).max(0), length) as usize);
        } else if rng.chance(60) {
            word = rng.next() as u32;
        }
        program.push(word);
    }
    Case::one(program, ram, rng.next(), state, 60)
}

/// Any instructions one after the other; most such programs halt soon.
fn short_programs(run: &mut Run, rng: &mut Rng) {
    let mut by_halt = [0u64; 18];
    let mut steps = 0;
    for _ in 0..20_000 {
        let mut case = short_program(rng);
        if rng.chance(4) {
            case.runs = vec![rng.between(0, 10) as u64, rng.between(0, 60) as u64];
        }
        if let Some(answers) = run.machine(&case) {
            by_halt[(answers[answers.len() - 1].state.halt as usize).min(17)] += 1;
            steps += answers.iter().map(|ran| ran.steps).sum::<u64>();
        }
    }
    let halts: Vec<String> = (11..18).map(|halt| format!("{} with {halt}", by_halt[halt])).collect();
    run.note(format!("{steps} steps; {} ended with their steps, the others halted: {}", by_halt[0], halts.join(", ")));
}
