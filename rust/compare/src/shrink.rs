//! Makes a mismatching case smaller for as long as it still mismatches.

use crate::case::{planes, set_planes, Call, Case, Fill, Step, NO_PLANE};
use crate::check::{check, Memories};
use crate::subject::Subject;
use merikohin::{Plane, Screen};
use std::time::{Duration, Instant};

const TRIES: usize = 20_000;
const TIME: Duration = Duration::from_secs(4);

/// The smallest mismatching case found from this one.
pub fn shrink(subject: Subject, case: &Case, memories: &mut Memories) -> Case {
    let start = Instant::now();
    let mut best = case.clone();
    let mut tries = 0;
    'again: loop {
        let best_cost = cost(&best);
        for candidate in candidates(&best) {
            if candidate.steps.is_empty() || cost(&candidate) >= best_cost {
                continue;
            }
            tries += 1;
            if tries > TRIES || start.elapsed() > TIME {
                return best;
            }
            if check(subject, &candidate, memories).difference.is_some() {
                best = candidate;
                continue 'again;
            }
        }
        return best;
    }
}

/// What is made smaller: calls, pixels, RAM, then the single numbers.
fn cost(case: &Case) -> u128 {
    let mut sum = case.ram as u128 * 16 + case.lead as u128;
    sum += match case.fill {
        Fill::Byte(byte) => u128::from(byte),
        Fill::Random(_) => 1_000,
    };
    for step in &case.steps {
        sum += 1 << 40;
        sum += u128::from(step.screen.colour_start) + u128::from(step.screen.depth_start);
        sum += u128::from(step.screen.size_number / 512) * 4096 + u128::from(step.screen.size_number % 512) * 256;
        match step.call {
            Call::Clear { colour, depth } => sum += u128::from(colour) + u128::from(depth),
            Call::RowCheck { row } | Call::Row { row, .. } => sum += u128::from(row),
            Call::Draw(t) => {
                sum += t.vertices.numbers().iter().map(|v| u128::from(v.unsigned_abs())).sum::<u128>();
                for p in planes(&t) {
                    sum += [p.c, p.a, p.b].iter().map(|v| u128::from(v.unsigned_abs())).sum::<u128>();
                }
            }
        }
    }
    sum
}

pub fn smaller(value: i64) -> Vec<i64> {
    let mut found = vec![0, value / 2, value / 8 * 8, value / 65536 * 65536, value - value.signum() * 8];
    found.push(value - value.signum());
    found.retain(|v| v.abs() < value.abs() && v.signum() * value.signum() >= 0);
    found.dedup();
    found
}

/// Vertices moved, halved, or with one number made smaller.
pub fn simpler_vertices(v: [i32; 6]) -> Vec<[i32; 6]> {
    let mut found = Vec::new();
    for by in [4096, 1024, 256, 64, 16, 8, 1, -1, -8, -64, -256, -1024, -4096] {
        let moved = |axis: usize| std::array::from_fn(|k| if k % 2 == axis { v[k].saturating_sub(by) } else { v[k] });
        found.extend([moved(0), moved(1)]);
    }
    found.push(v.map(|n| n / 2));
    found.push(v.map(|n| n / 8 * 8));
    for k in 0..6 {
        for n in smaller(i64::from(v[k])) {
            let mut new = v;
            new[k] = n as i32;
            found.push(new);
        }
    }
    found
}

fn area(screen: Screen) -> u64 {
    u64::from(screen.size_number / 512) * u64::from(screen.size_number % 512) * 32
}

fn candidates(case: &Case) -> Vec<Case> {
    let mut found = Vec::new();

    // Fewer calls.
    for gone in 0..case.steps.len() {
        let mut next = case.clone();
        next.steps.remove(gone);
        found.push(next);
    }

    // A smaller screen, in all calls that have this one, with RAM to fit.
    for step in &case.steps {
        let old = step.screen;
        let change_all = |new: Screen| {
            let mut next = case.clone();
            for other in next.steps.iter_mut().filter(|other| other.screen == old) {
                other.screen = new;
            }
            next
        };
        let (groups, height) = (old.size_number / 512, old.size_number % 512);
        for g in smaller(i64::from(groups)) {
            found.push(fitted(change_all(Screen { size_number: g as u32 * 512 + height, ..old })));
            found.push(change_all(Screen { size_number: g as u32 * 512 + height, ..old }));
        }
        for h in smaller(i64::from(height)) {
            found.push(fitted(change_all(Screen { size_number: groups * 512 + h as u32, ..old })));
            found.push(change_all(Screen { size_number: groups * 512 + h as u32, ..old }));
        }
        for start in smaller(i64::from(old.colour_start)) {
            found.push(change_all(Screen { colour_start: start as u32, ..old }));
        }
        for start in smaller(i64::from(old.depth_start)) {
            found.push(change_all(Screen { depth_start: start as u32, ..old }));
        }
    }
    found.push(fitted(case.clone()));

    // A smaller and simpler RAM.
    for ram in smaller(case.ram as i64) {
        found.push(Case { ram: ram as usize, ..case.clone() });
    }
    found.push(Case { ram: 4_194_305, ..case.clone() });
    found.push(Case { lead: 0, ..case.clone() });
    for byte in [0, 255, 1, 128] {
        found.push(Case { fill: Fill::Byte(byte), ..case.clone() });
    }

    // Simpler arguments.
    for (place, step) in case.steps.iter().enumerate() {
        let mut push = |call: Call| {
            let mut next = case.clone();
            next.steps[place] = Step { call, ..*step };
            found.push(next);
        };
        match step.call {
            Call::Clear { colour, depth } => {
                for v in smaller(i64::from(colour)) {
                    push(Call::Clear { colour: v as u16, depth });
                }
                for v in smaller(i64::from(depth)) {
                    push(Call::Clear { colour, depth: v as u16 });
                }
            }
            Call::RowCheck { row } => {
                smaller(i64::from(row)).iter().for_each(|&v| push(Call::RowCheck { row: v as u32 }))
            }
            Call::Row { area, row } => {
                smaller(i64::from(row)).iter().for_each(|&v| push(Call::Row { area, row: v as u32 }))
            }
            Call::Draw(t) => {
                let with_planes = |p: [Plane; 4]| {
                    let mut new = t;
                    set_planes(&mut new, p);
                    Call::Draw(new)
                };
                push(with_planes([NO_PLANE; 4]));
                for k in 0..4 {
                    let mut p = planes(&t);
                    p[k] = NO_PLANE;
                    push(with_planes(p));
                }
                let with_vertices = |v: [i32; 6]| {
                    let mut new = t;
                    new.vertices = v.into();
                    Call::Draw(new)
                };
                simpler_vertices(t.vertices.numbers()).into_iter().for_each(|v| push(with_vertices(v)));
                for k in 0..4 {
                    for field in 0..3 {
                        let p = planes(&t);
                        let old = [p[k].c, p[k].a, p[k].b];
                        for n in smaller(i64::from(old[field])) {
                            let mut new = old;
                            new[field] = n as i32;
                            let mut p = p;
                            p[k] = Plane { c: new[0], a: new[1], b: new[2] };
                            push(with_planes(p));
                        }
                    }
                }
            }
        }
    }
    found
}

/// Colour area at 0, depth area right after it, RAM just long enough for all.
fn fitted(mut case: Case) -> Case {
    let mut needed = 0;
    for step in &mut case.steps {
        let bytes = area(step.screen);
        if bytes <= 2_097_152 {
            step.screen.colour_start = 0;
            step.screen.depth_start = bytes as u32;
            needed = needed.max(2 * bytes as usize);
        }
    }
    case.ram = needed;
    case
}
