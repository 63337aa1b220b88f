//! Makes a mismatching case smaller for as long as it still mismatches: first
//! to the one step that goes wrong, then in all that this step does not need.

use super::case::{plain_state, second_state, Case, DataFill, NO_SCREEN, NO_TREE};
use super::check::{check, Memories};
use crate::case::Fill;
use crate::shrink::smaller;
use crate::subject::Subject;
use kit::words::idle;
use merikohin::{Screen, State};
use std::time::{Duration, Instant};

const TRIES: usize = 20_000;
const TIME: Duration = Duration::from_secs(4);
/// A run that allows more steps than these may take too long.
const STEPS: u64 = 10_000_000;

/// The smallest mismatching case found from this one.
pub fn shrink(subject: Subject, case: &Case, memories: &mut Memories) -> Case {
    let start = Instant::now();
    let mut best = one_step(subject, case, memories).unwrap_or(case.clone());
    // A smaller program may be endless, so its steps are made fewer first.
    if best.runs.iter().any(|&steps| steps > STEPS) {
        let fewer = Case { runs: best.runs.iter().map(|&steps| steps.min(STEPS)).collect(), ..best.clone() };
        if check(subject, &fewer, memories).difference.is_none() {
            return best;
        }
        best = fewer;
    }
    let mut tries = 0;
    'again: loop {
        let best_cost = cost(&best);
        for candidate in candidates(&best) {
            if candidate.runs.is_empty() || cost(&candidate) >= best_cost {
                continue;
            }
            tries += 1;
            if tries > TRIES || start.elapsed() > TIME {
                return best;
            }
            if check(subject, &candidate, memories).difference.is_some() {
                best = candidate;
                continue 'again;
            }
        }
        return best;
    }
}

/// The case as far as just before its first wrong step, as the second program
/// has it, and then that step alone; if this alone mismatches too.
fn one_step(subject: Subject, case: &Case, memories: &mut Memories) -> Option<Case> {
    if case.ram > 100_000 || case.runs.iter().any(|&steps| steps > STEPS) {
        return None;
    }
    let wrong = check(subject, case, memories).difference?.run;
    let cut = |steps: u64| {
        let mut next = case.clone();
        next.runs.truncate(wrong);
        next.runs.push(steps);
        next
    };
    // Right with `low` steps and wrong with `high`.
    let (mut low, mut high) = (0, case.runs[wrong]);
    if high == 0 {
        return None;
    }
    while high - low > 1 {
        let middle = low + (high - low) / 2;
        if check(subject, &cut(middle), memories).difference.is_some() {
            high = middle;
        } else {
            low = middle;
        }
    }
    let (mut data, mut ram, mut state) = (Vec::new(), Vec::new(), second_state(&case.state));
    case.data_at_first(&mut data);
    case.ram_at_first(&mut ram);
    for steps in cut(low).runs {
        state = second::machine::run(&case.program, &mut data, &mut ram, &state, steps).state;
    }
    let step = Case {
        data_fill: DataFill::Word(0),
        words: data.iter().copied().enumerate().filter(|(_, word)| *word != 0).collect(),
        fill: Fill::Byte(0),
        bytes: ram.iter().copied().enumerate().filter(|(_, byte)| *byte != 0).collect(),
        state: plain_state(&state),
        runs: vec![1],
        singly: 1,
        ..case.clone()
    };
    check(subject, &step, memories).difference.is_some().then_some(step)
}

/// What is made smaller: runs, steps, words of the program, then the rest.
fn cost(case: &Case) -> u128 {
    let some = |yes: bool, weight: u32| u128::from(yes) << weight;
    let mut sum = (case.runs.len() as u128) << 100;
    sum += (case.runs.iter().map(|&steps| u128::from(steps.min(1 << 32))).sum::<u128>()
        + u128::from(case.singly.min(1 << 32)))
        << 62;
    sum += case.program.iter().enumerate().map(|(at, &word)| some(word != idle(at), 45)).sum::<u128>();
    sum += (case.program.len() as u128) << 44;
    sum += case.data as u128 + (((case.words.len() + case.bytes.len()) as u128) << 36);
    sum += case.words.values().map(|&word| u128::from(word)).sum::<u128>();
    sum += ((case.ram as u128) << 8) + case.lead as u128;
    sum += some(matches!(case.data_fill, DataFill::Mixed(_)), 40) + some(matches!(case.fill, Fill::Random(_)), 40);
    if let Fill::Byte(byte) = case.fill {
        sum += u128::from(byte);
    }
    let s = &case.state;
    sum += s.registers.iter().map(|&value| some(value != 0, 34) + u128::from(value)).sum::<u128>();
    for value in
        [s.place, s.negative, s.zero, s.halt, s.has_screen, s.has_tree, s.tree.has_depth, s.tree.column, s.tree.row]
    {
        sum += some(value != 0, 33) + u128::from(value);
    }
    sum +=
        u128::from(s.screen.colour_start) + u128::from(s.screen.depth_start) + (u128::from(s.screen.size_number) << 4);
    sum += s.tree.inside.iter().chain(&s.tree.outside).map(|&mark| u128::from(mark)).sum::<u128>();
    sum += s.tree.colour.iter().chain(&s.tree.depth).map(|&half| u128::from(half)).sum::<u128>();
    sum
}

fn candidates(case: &Case) -> Vec<Case> {
    let mut found = Vec::new();

    // Fewer runs, fewer steps.
    for gone in 0..case.runs.len() {
        let mut next = case.clone();
        next.runs.remove(gone);
        found.push(next);
    }
    if case.runs.len() > 1 {
        let total = case.runs.iter().fold(0u64, |sum, &steps| sum.saturating_add(steps));
        found.push(Case { runs: vec![total], ..case.clone() });
    }
    for (place, &steps) in case.runs.iter().enumerate() {
        for fewer in [0, 1, 2, steps / 2, steps - steps / 8, steps.saturating_sub(1)] {
            let mut next = case.clone();
            next.runs[place] = fewer;
            found.push(next);
        }
    }

    for fewer in [1, 2, case.singly / 2, case.singly.saturating_sub(1)] {
        found.push(Case { singly: fewer.max(1), ..case.clone() });
    }

    // A shorter program, and steps taken out of it.
    if let Some(&word) = case.program.get(case.state.place as usize) {
        let state = State { place: 0, ..case.state };
        found.push(Case { program: vec![word], state, ..case.clone() });
        found.push(Case { program: case.program[..=case.state.place as usize].to_vec(), ..case.clone() });
    }
    let length = case.program.len();
    for shorter in [0, length / 2, length - length / 8, length.saturating_sub(1)] {
        found.push(Case { program: case.program[..shorter].to_vec(), ..case.clone() });
    }
    let mut chunk = length.max(1).next_power_of_two();
    while chunk >= 1 {
        for start in (0..length).step_by(chunk) {
            let mut next = case.clone();
            (start..length.min(start + chunk)).for_each(|at| next.program[at] = idle(at));
            found.push(next);
        }
        chunk /= 2;
    }

    // Plainer memories.
    found.push(Case { words: Default::default(), bytes: Default::default(), ..case.clone() });
    found.push(Case { words: Default::default(), ..case.clone() });
    found.push(Case { bytes: Default::default(), ..case.clone() });
    for fill in [DataFill::Word(0), DataFill::Word(1), DataFill::Word(u32::MAX)] {
        found.push(Case { data_fill: fill, ..case.clone() });
    }
    for byte in [0, 255, 1, 128] {
        found.push(Case { fill: Fill::Byte(byte), ..case.clone() });
    }
    let (words, bytes): (Vec<usize>, Vec<usize>) =
        (case.words.keys().copied().collect(), case.bytes.keys().copied().collect());
    let mut chunk = words.len().max(bytes.len()).next_power_of_two();
    while chunk >= 1 {
        for part in words.chunks(chunk) {
            let mut next = case.clone();
            part.iter().for_each(|at| {
                next.words.remove(at);
            });
            found.push(next);
        }
        for part in bytes.chunks(chunk) {
            let mut next = case.clone();
            part.iter().for_each(|at| {
                next.bytes.remove(at);
            });
            found.push(next);
        }
        chunk /= 2;
    }
    for ram in smaller(case.ram as i64) {
        found.push(Case { ram: ram as usize, ..case.clone() });
    }
    found.push(Case { ram: 4_194_305, ..case.clone() });
    found.push(Case { lead: 0, ..case.clone() });
    if words.len() <= 16 {
        for (&at, &word) in &case.words {
            for value in smaller(i64::from(word)) {
                let mut next = case.clone();
                next.words.insert(at, value as u32);
                found.push(next);
            }
        }
    }

    // A plainer state.
    let s = case.state;
    let mut push = |state: State| found.push(Case { state, ..case.clone() });
    push(State { registers: [0; 32], ..s });
    push(State { has_tree: 0, tree: NO_TREE, ..s });
    push(State { has_screen: 0, screen: NO_SCREEN, has_tree: 0, tree: NO_TREE, ..s });
    // A size number that means nothing may be any.
    let bytes = (s.screen.size_number / 512).wrapping_mul(s.screen.size_number % 512 * 32);
    push(State { screen: Screen { colour_start: 0, depth_start: bytes, ..s.screen }, ..s });
    for (groups, height) in [(1, 1), (s.screen.size_number / 512, 1), (1, s.screen.size_number % 512)] {
        let size = groups * 512 + height;
        push(State { screen: Screen { colour_start: 0, depth_start: groups * height * 32, size_number: size }, ..s });
    }
    for k in 0..32 {
        for value in smaller(i64::from(s.registers[k])) {
            let mut regs = s.registers;
            regs[k] = value as u32;
            push(State { registers: regs, ..s });
        }
    }
    for set in [0, 1] {
        push(State { negative: set, ..s });
        push(State { zero: set, ..s });
        push(State { has_screen: set, ..s });
        push(State { has_tree: set, ..s });
        let mut tree = s.tree;
        tree.has_depth = set;
        push(State { tree, ..s });
    }
    push(State { halt: 0, ..s });
    for value in smaller(i64::from(s.place)) {
        push(State { place: value as u32, ..s });
    }
    for k in [None].into_iter().chain((0..16).map(Some)) {
        let each = |change: &dyn Fn(&mut State, usize)| {
            let mut next = s;
            (0..16).filter(|&leaf| k.is_none_or(|k| k == leaf)).for_each(|leaf| change(&mut next, leaf));
            next
        };
        push(each(&|next, leaf| next.tree.inside[leaf] = 0));
        push(each(&|next, leaf| next.tree.outside[leaf] = 0));
        push(each(&|next, leaf| next.tree.colour[leaf] = 0));
        push(each(&|next, leaf| next.tree.depth[leaf] = 0));
    }
    for value in smaller(i64::from(s.tree.column)) {
        let mut tree = s.tree;
        tree.column = value as u32;
        push(State { tree, ..s });
    }
    for value in smaller(i64::from(s.tree.row)) {
        let mut tree = s.tree;
        tree.row = value as u32;
        push(State { tree, ..s });
    }
    found
}
