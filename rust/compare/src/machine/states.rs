//! What a run refuses: lengths, and states that are ill-formed; and states that
//! only look odd, which it takes.

use super::case::{second_state, with_regs, with_screen, with_tree, Case, FRESH, NO_TREE};
use super::parts::{any_word, place_on, screen_in, state_in, tree_on, yes};
use super::reciprocals::LONG_RUN;
use crate::case::Fill;
use crate::groups::{area, size, tight};
use crate::run::Run;
use kit::rng::Rng;
use kit::words::{rri, rrr, to};
use merikohin::{Screen, State, Tree};
use second::machine::{ADD, CLS, DATA_WORDS, JMP, ST, TREEPUT, WRITE};

/// A program that would change everything it can: registers, data memory, RAM.
fn busy(length: usize) -> Vec<u32> {
    let words = [
        rri(ST, 1, 0, 5),
        rrr(WRITE, 0, 0, 0),
        rrr(CLS, 1, 2, 0),
        rrr(TREEPUT, 0, 0, 0),
        rrr(ADD, 1, 1, 1),
        to(JMP, 0),
    ];
    (0..length).map(|at| words[at % words.len()]).collect()
}

/// Steps allowed to a run that takes none: few, and so many that the engine copies
/// 02's table (M-102).
const TAKES_NONE: [u64; 5] = [0, 1, 50, LONG_RUN, 1_000_000];

/// A refused run: the number, no step, the state as given (the rest is compared
/// with the second program).
fn refused(run: &mut Run, case: &Case, number: u32) {
    if let Some(ran) = run.machine_wants(case, number, Some(0), None) {
        run.holds(ran.state.same_fields(&case.state), || format!("{case}: refused, and the state is not as given"));
    }
}

/// 1: "program longer than 1,024 words"; 2: "data memory not 1,024 words"; 3:
/// "RAM longer than 4,194,304 bytes".
pub fn lengths(run: &mut Run, rng: &mut Rng) {
    let number = |program: usize, data: usize, ram: usize| {
        if program > 1024 {
            1
        } else if data != 1024 {
            2
        } else if ram > 4_194_304 {
            3
        } else {
            0
        }
    };
    for program in [0usize, 1, 512, 1023, 1024, 1025, 1026, 2048, 65536, 65536 + 1024] {
        for data in [0usize, 1, 2, 512, 1023, 1024, 1025, 1026, 2048, 65536 + 1024] {
            for ram in [0usize, 64, 256] {
                let state = state_in(rng, ram);
                let number = number(program, data, ram);
                let steps = if number == 0 { rng.pick(&[0, 1, 50]) } else { rng.pick(&TAKES_NONE) };
                let case = Case { data, ..Case::one(busy(program), ram, rng.next(), state, steps) };
                match number {
                    0 => {
                        run.machine(&case);
                    }
                    number => refused(run, &case, number),
                }
            }
        }
    }
    for ram in [4_194_303usize, 4_194_304, 4_194_305, 4_194_306, 4_194_304 + 65_536, 8_388_608] {
        for (program, data) in [(6, 1024), (0, 1024), (1024, 1024), (1025, 1024), (6, 1023), (1025, 0)] {
            let state = state_in(rng, 256);
            let fill = if rng.chance(2) { Fill::Byte(rng.next() as u8) } else { Fill::Random(rng.next()) };
            let number = number(program, data, ram);
            let steps = if number == 0 { 20 } else { rng.pick(&TAKES_NONE) };
            let case = Case { data, fill, singly: 20, ..Case::one(busy(program), ram, rng.next(), state, steps) };
            match number {
                0 => {
                    run.machine(&case);
                }
                number => refused(run, &case, number),
            }
        }
    }
}

/// A state, and whether it is well-formed in a RAM this long.
struct Given {
    state: State,
    ram: usize,
    well: bool,
}

/// 4: "A state is ill-formed exactly if R0 is not 0, the halt number is none of
/// 0 and 11 to 17, it has a screen that is not sound in this RAM, or it has a
/// tree and no screen, or a tree place that TREESET would refuse."
fn given(rng: &mut Rng) -> Vec<Given> {
    let mut found = Vec::new();
    let mut push = |state: State, ram: usize, well: bool| found.push(Given { state, ram, well });

    // R0.
    for value in [1, 2, 255, 256, 65536, 1 << 31, u32::MAX] {
        let mut state = state_in(rng, 256);
        state.registers[0] = value;
        push(state, 256, false);
        push(State { registers: [value; 32], ..FRESH }, 0, false);
    }
    push(FRESH, 0, true);

    // Halt numbers.
    for halt in
        (0..=300).chain([65536, 65536 + 11, 65536 + 12, 1 << 24, 1 << 31, (1 << 31) + 12, u32::MAX - 11, u32::MAX])
    {
        let well = halt == 0 || (11..=17).contains(&halt);
        push(State { halt, ..state_in(rng, 256) }, 256, well);
        push(State { halt, ..FRESH }, 0, well);
    }

    // Screens, sound and not; all other fields well.
    for (groups, height) in [(1, 1), (1, 4), (2, 3)] {
        let s = size(groups, height);
        let a = area(s);
        let exact = 2 * a as usize;
        let mut list = vec![
            // Touching each other and the very end of RAM, in both orders.
            (0, a, s, exact, true),
            (a, 0, s, exact, true),
            (0, a, s, exact + 1, true),
            (2, a + 2, s, exact + 2, true),
            (a + 2, 0, s, exact + 3, true),
            // Past the end of RAM.
            (0, a, s, exact - 1, false),
            (a, 0, s, exact - 1, false),
            (0, a + 2, s, exact, false),
            (a + 2, 0, s, exact, false),
            (0, a, s, a as usize, false),
            (0, a, s, 0, false),
            // Overlapping, or the same.
            (0, a - 2, s, exact, false),
            (a - 2, 0, s, exact, false),
            (0, 0, s, exact, false),
            (a, a, s, exact, false),
            // Odd starts.
            (1, a + 2, s, exact + 4, false),
            (0, a + 1, s, exact + 4, false),
            (1, a + 3, s, exact + 4, false),
            // Starts near 2^32.
            (0u32.wrapping_sub(a), 0, s, exact, false),
            (0, 0u32.wrapping_sub(a), s, exact, false),
            (u32::MAX - 1, 0, s, exact, false),
            (0, 1 << 31, s, exact, false),
        ];
        // Sizes out of range, and fine only if cut to fewer bits.
        for bad in [0, s % 512, s / 512 * 512, size(41, 1), size(1, 481), size(1, 511), size(64, 1), size(128, 1)] {
            list.push((0, 100_000, bad, 200_000, false));
        }
        for high in [1 << 15, 1 << 16, 1 << 17, 1 << 24, 1 << 31, 0xffff_0000] {
            list.push((0, a, s | high, exact, false));
        }
        list.push((0, a, u32::MAX, exact, false));
        for (colour, depth, size, ram, well) in list {
            let screen = Screen { colour_start: colour, depth_start: depth, size_number: size };
            let no_screen = State { has_screen: 0, has_tree: 0, ..state_in(rng, 0) };
            push(State { has_screen: yes(rng), screen, ..no_screen }, ram, well);
            // The same fields where there is no screen mean nothing.
            push(State { has_screen: 0, screen, ..no_screen }, ram, true);
            // A tree at its first place is well where the screen is.
            let tree = State { has_screen: 1, screen, has_tree: yes(rng), tree: NO_TREE, ..no_screen };
            push(tree, ram, well);
        }
    }

    // A screen at the very end of the longest RAM.
    let (a, ram) = (area(20960), 4_194_304u32);
    for (colour, depth, well) in [(ram - a, ram - 2 * a, true), (ram - a + 2, 0, false), (0, ram - a + 2, false)] {
        push(
            with_screen(FRESH, Screen { colour_start: colour, depth_start: depth, size_number: 20960 }),
            ram as usize,
            well,
        );
    }

    // Trees without a screen, at any place.
    for (column, row) in [(0, 0), (16, 0), (1, 1), (u32::MAX, u32::MAX)] {
        let state = State { has_screen: 0, ..state_in(rng, 256) };
        let tree = Tree { column, row, ..tree_on(rng, tight(20960).0) };
        push(State { has_tree: yes(rng), tree, ..state }, 256, false);
        push(State { has_tree: 0, tree, ..state }, 256, true);
    }
    // Tree places.
    for (groups, height) in [(1u32, 1u32), (1, 4), (2, 3), (40, 1)] {
        let (screen, ram) = tight(size(groups, height));
        let w = groups * 16;
        let columns =
            [0, 1, 8, 15, 16, 17, 32, w - 16, w - 15, w - 1, w, w + 16, 640, 65536, 1 << 31, u32::MAX - 15, u32::MAX];
        let rows = [0, 1, height - 1, height, height + 1, 480, 511, 512, 65536, 1 << 31, u32::MAX];
        for column in columns {
            for row in rows {
                let well = column % 16 == 0 && column < w && row < height;
                let tree = Tree { column, row, ..tree_on(rng, screen) };
                push(with_tree(with_screen(state_in(rng, 0), screen), tree), ram, well);
            }
        }
    }

    // Odd, and well-formed. Places far away, all registers alike, both flags,
    // every pair of marks, trees with and without held depths, yes in any form.
    for place in [1, 1023, 1024, 1 << 31, u32::MAX] {
        push(State { place, ..state_in(rng, 256) }, 256, true);
    }
    for value in [1, 1 << 31, u32::MAX] {
        let mut regs = [value; 32];
        regs[0] = 0;
        push(State { registers: regs, negative: yes(rng), zero: yes(rng), ..FRESH }, 0, true);
    }
    for held in [0, 1, 2, 256, 1 << 31] {
        for marks in 0..4u8 {
            for form in [1, 2, 128, 255] {
                let screen = screen_in(rng, 300).expect("one fits");
                let (column, row) = place_on(rng, screen);
                let tree = Tree {
                    column,
                    row,
                    inside: [(marks & 1) * form; 16],
                    outside: [(marks >> 1) * form; 16],
                    has_depth: held,
                    ..tree_on(rng, screen)
                };
                push(with_tree(with_screen(state_in(rng, 0), screen), tree), 300, true);
            }
        }
    }
    found
}

/// Every state of the list, with budgets of 0, 1 and more; also halted. Those
/// that take no step have long runs too.
pub fn states(run: &mut Run, rng: &mut Rng) {
    let (mut taken, mut turned_away) = (0, 0);
    for Given { state, ram, well } in given(rng) {
        if well {
            taken += 1;
        } else {
            turned_away += 1;
        }
        let mut variants = vec![state];
        if state.halt == 0 {
            // "A halted state runs 0 steps and stays", if it is well-formed.
            variants.push(State { halt: rng.between(11, 17) as u32, ..state });
        }
        for state in variants {
            let budgets: &[u64] = if ram > 1_000_000 {
                &[3]
            } else if !well || state.halt != 0 {
                &TAKES_NONE
            } else {
                &[0, 1, 8]
            };
            for &steps in budgets {
                let program = if rng.chance(4) { vec![any_word(rng)] } else { busy(6) };
                let case = Case { singly: 8, ..Case::one(program, ram, rng.next(), state, steps) };
                if !well {
                    refused(run, &case, 4);
                } else if state.halt != 0 {
                    let halted = run.machine_wants(&case, 0, Some(0), Some(state.halt));
                    if let Some(ran) = halted {
                        let same = second_state(&ran.state) == second_state(&state);
                        run.holds(same, || format!("{case}: a halted state did not stay"));
                    }
                } else {
                    run.machine_wants(&case, 0, None, None);
                }
            }
        }
    }
    run.note(format!("{taken} kinds of well-formed state, {turned_away} of ill-formed"));
}

/// "The lowest number that applies to that kind of call wins", for every choice
/// of faults.
pub fn several(run: &mut Run, rng: &mut Rng) {
    let screen = tight(size(1, 4)).0;
    let bad_states = [
        State { registers: [1; 32], ..FRESH },
        State { halt: 18, ..FRESH },
        State { halt: 10, ..with_regs(&[(1, 5)]) },
        with_screen(FRESH, Screen { size_number: 0, ..screen }),
        with_screen(FRESH, Screen { colour_start: 1, ..screen }),
        with_tree(FRESH, NO_TREE),
        with_tree(with_screen(FRESH, screen), Tree { column: 8, ..NO_TREE }),
        with_tree(with_screen(FRESH, screen), Tree { row: 4, ..NO_TREE }),
        // Everything at once.
        State {
            registers: [u32::MAX; 32],
            place: u32::MAX,
            negative: u32::MAX,
            zero: u32::MAX,
            halt: u32::MAX,
            has_screen: u32::MAX,
            screen: Screen { colour_start: u32::MAX, depth_start: u32::MAX, size_number: u32::MAX },
            has_tree: u32::MAX,
            tree: Tree {
                column: u32::MAX,
                row: u32::MAX,
                inside: [u8::MAX; 16],
                outside: [u8::MAX; 16],
                colour: [u16::MAX; 16],
                depth: [u16::MAX; 16],
                has_depth: u32::MAX,
            },
        },
    ];
    for faults in 0..16u32 {
        let has = |number: u32| faults >> (number - 1) & 1 == 1;
        let lowest = (1..=4).find(|&number| has(number)).unwrap_or(0);
        for turn in 0..9 {
            let program = if has(1) { rng.pick(&[1025, 1026, 3000]) } else { rng.pick(&[0, 1, 6, 1024]) };
            let data = if has(2) { rng.pick(&[0, 1, 1023, 1025, 2048]) } else { DATA_WORDS };
            let ram = if has(3) { rng.pick(&[4_194_305, 4_200_000]) } else { 256 };
            let state = if has(4) { bad_states[turn] } else { state_in(rng, 256) };
            let steps = if lowest == 0 { rng.pick(&[0, 1, 40]) } else { rng.pick(&TAKES_NONE) };
            let mut case = Case { data, ..Case::one(busy(program), ram, rng.next(), state, steps) };
            if has(3) && turn > 0 {
                case.fill = Fill::Byte(rng.next() as u8);
            }
            if lowest == 0 {
                run.machine_wants(&case, 0, None, None);
            } else {
                refused(run, &case, lowest);
            }
        }
    }
}
