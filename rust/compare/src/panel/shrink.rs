//! Makes a mismatching case smaller for as long as it still mismatches.

use super::case::{Case, Recording};
use super::check::{check, Lent};
use crate::case::Fill;
use crate::check::Memories;
use crate::groups::tight;
use crate::shrink::smaller;
use crate::subject::Subject;
use merikohin::Screen;
use std::time::{Duration, Instant};

const TIME: Duration = Duration::from_secs(4);

/// Recordings up to this long are taken apart sample by sample.
const LISTED: usize = 400;

/// The smallest mismatching case found from this one.
pub fn shrink(subject: Subject, case: &Case, memories: &mut Memories, lent: &mut Lent) -> Case {
    let start = Instant::now();
    let mut best = case.clone();
    loop {
        let cheaper = candidates(&best).into_iter().filter(|candidate| cost(candidate) < cost(&best));
        let next = cheaper
            .take_while(|_| start.elapsed() < TIME)
            .find(|candidate| check(subject, candidate, memories, lent).1.is_some());
        match next {
            Some(next) => best = next,
            None => return best,
        }
    }
}

/// What is made smaller: the screen, the RAM, the samples, then the single numbers.
fn cost(case: &Case) -> u128 {
    let Screen { colour_start, depth_start, size_number } = case.screen;
    let screen = u128::from(size_number / 512) * 4096 + u128::from(size_number % 512) * 256;
    let fill = match case.fill {
        Fill::Byte(byte) => u128::from(byte),
        Fill::Random(_) => 1_000,
    };
    let recording = match &case.recording {
        Recording::List(list) => list.iter().map(|v| u128::from(v.unsigned_abs())).sum::<u128>(),
        Recording::Same(value, _) => u128::from(value.unsigned_abs()),
        Recording::InTurn(first, second, _) => 1 + u128::from(first.unsigned_abs()) + u128::from(second.unsigned_abs()),
        Recording::Random(..) => 1 << 30,
    };
    let numbers = [case.per_column, case.offset].iter().map(|n| u128::from(n.unsigned_abs())).sum::<u128>();
    let counts = case.count() as u128 * 70_000 + case.without as u128;
    (screen << 20)
        + case.ram as u128 * 16
        + case.lead as u128
        + u128::from(colour_start)
        + u128::from(depth_start)
        + fill
        + recording
        + counts
        + numbers
        + u128::from(case.colour)
}

fn recordings(case: &Case) -> Vec<Case> {
    let count = case.recording.count();
    let with = |recording: Recording| Case { recording, ..case.clone() };
    let counts = smaller(count as i64).into_iter().map(|count| count as usize);
    let mut found: Vec<Case> = counts
        .map(|count| match &case.recording {
            Recording::List(list) => with(Recording::List(list[..count].to_vec())),
            Recording::Same(value, _) => with(Recording::Same(*value, count)),
            Recording::InTurn(first, second, _) => with(Recording::InTurn(*first, *second, count)),
            Recording::Random(seed, _) => with(Recording::Random(*seed, count)),
        })
        .collect();
    // Fewer before the screen, and the offset as much less.
    for d in smaller(i64::from(case.offset.max(0))) {
        let without = case.without + (i64::from(case.offset) - d) as usize;
        found.push(Case { offset: d as i32, without, ..case.clone() });
    }
    found.extend([0, -1, i16::MAX, i16::MIN].map(|value| with(Recording::Same(value, count))));
    if case.count() > LISTED {
        return found;
    }
    let list = case.samples();
    found.push(Case { without: 0, ..with(Recording::List(list.clone())) });
    for k in 0..list.len() {
        let mut fewer = list.clone();
        fewer.remove(k);
        found.push(Case { without: 0, ..with(Recording::List(fewer)) });
        for v in smaller(i64::from(list[k])) {
            let mut simpler = list.clone();
            simpler[k] = v as i16;
            found.push(Case { without: 0, ..with(Recording::List(simpler)) });
        }
    }
    found
}

/// The same on another size, with RAM to fit and where the areas stand.
fn sizes(case: &Case) -> Vec<Case> {
    let (groups, height) = (case.screen.size_number / 512, case.screen.size_number % 512);
    let mut all: Vec<u32> = smaller(i64::from(groups)).iter().map(|&g| g as u32 * 512 + height).collect();
    all.extend(smaller(i64::from(height)).iter().map(|&h| groups * 512 + h as u32));
    let kept = all.iter().map(|&size_number| Case { screen: Screen { size_number, ..case.screen }, ..case.clone() });
    let fitted = all.iter().chain([&case.screen.size_number]).filter(|&&s| s / 512 <= 64).map(|&s| {
        let (screen, ram) = tight(s);
        Case { screen, ram, ..case.clone() }
    });
    fitted.chain(kept).collect()
}

fn candidates(case: &Case) -> Vec<Case> {
    let mut found = sizes(case);
    let base = || case.clone();
    found.extend(smaller(case.ram as i64).into_iter().map(|ram| Case { ram: ram as usize, ..base() }));
    found.extend([0, 255].map(|byte| Case { fill: Fill::Byte(byte), ..base() }));
    found.push(Case { lead: 0, ..base() });
    for n in smaller(i64::from(case.per_column)) {
        found.push(Case { per_column: n as i32, ..base() });
    }
    for d in smaller(i64::from(case.offset)) {
        found.push(Case { offset: d as i32, ..base() });
    }
    for colour in smaller(i64::from(case.colour)) {
        found.push(Case { colour: colour as u16, ..base() });
    }
    let Screen { colour_start, depth_start, .. } = case.screen;
    for start in smaller(i64::from(colour_start)) {
        found.push(Case { screen: Screen { colour_start: start as u32, ..case.screen }, ..base() });
    }
    for start in smaller(i64::from(depth_start)) {
        found.push(Case { screen: Screen { depth_start: start as u32, ..case.screen }, ..base() });
    }
    found.extend(recordings(case));
    found
}
