//! The second program's panel with one slip.

use super::check::seen;
use crate::case::second_screen;
use merikohin::raw::Panelled;
use merikohin::Screen;
use second::panel::{panel_number, Input};
use std::ops::Range;

/// The slips a wrong panel can have.
#[derive(Clone, Copy, Debug, PartialEq, Eq)]
pub enum Slip {
    /// Each bar stands one column to the right.
    ColumnOut,
    /// The last column is not drawn.
    LastColumn,
    /// Columns from 512 on are not drawn.
    Columns512,
    /// A column takes one sample before its first too.
    OneBefore,
    /// A column takes one sample after its last too.
    OneAfter,
    /// A column's first sample is left out.
    NoFirst,
    /// A column's last sample is left out, if it has more than one.
    NoLast,
    /// The offset's sign is turned.
    OffsetTurned,
    /// The offset is counted in columns.
    OffsetInColumns,
    /// Samples from 32,768 on do not exist.
    Samples32768,
    /// A sample's column is found by a division toward zero.
    ColumnTowardZero,
    /// A column without samples is drawn as silence.
    NoneDrawn,
    /// In a column with samples, those that do not exist count as 0.
    MissingZero,
    /// Samples are read as unsigned.
    Unsigned,
    /// The search for the largest and for the smallest begins at 0.
    FromZero,
    /// A sample that is the largest so far is not looked at as the smallest.
    ElseSmallest,
    /// A bar reaches to the bar on its left.
    Joined,
    /// The row of the largest sample is not filled, if there is another.
    NoTop,
    /// The row of the smallest sample is not filled.
    NoBottom,
    /// Row 479 is not filled.
    NoRow479,
    /// In a bar with an odd number of rows, whose diagonal goes through a sample
    /// point, that pixel is in neither triangle.
    DiagonalMissed,
    /// It is in both, and counted twice.
    DiagonalTwice,
    /// Rows are counted from below.
    UpsideDown,
    /// The row is rounded to the nearest.
    RowRounded,
    /// The row is counted from the middle, and rounded toward zero.
    RowTowardZero,
    /// The row has height - 1 for the height.
    HeightLess1,
    /// The row has 65,535 for 65,536.
    Row65535,
    /// The row has 32,768 for 32,767.
    Row32768,
    /// The product keeps 24 bits.
    Product24,
    /// The depth is left as it was.
    NoDepth,
    /// The depth becomes 65,535.
    DepthFar,
    /// The lowest bit of green is lost.
    Green5,
    /// Drawn only where the stored depth is above 0.
    DepthAbove,
    /// The count is that of the bars.
    CountBars,
    /// The count is that of the pixels which had another colour or depth.
    CountChanged,
    /// The screen is cleared first.
    Clears,
    /// A refusal with 10 draws, where it can.
    RefusalDraws,
    /// 10 goes before 5.
    TenBefore5,
    /// 10 goes before 3.
    TenBefore3,
    /// A RAM of 4,194,305 bytes is accepted.
    RamLonger,
    /// No samples answer 0 before anything is looked at.
    EmptyFirst,
    /// 40,960 samples are refused.
    Most40959,
    /// 40,961 samples are accepted.
    Most40961,
    /// No samples are refused.
    EmptyRefused,
    /// An n of 0 is accepted, and draws nothing.
    N0,
    /// An n of 65 is accepted.
    N65,
    /// An offset of -2,048 is refused.
    LeastOffset,
    /// An offset of -2,049 is accepted.
    Offset2049,
    /// An offset of 2,048 is accepted.
    Offset2048,
    /// An offset beyond the recording is refused.
    OffsetBeyond,
}

/// What is accepted: each from the first to just before the last.
struct Limits {
    samples: Range<usize>,
    n: Range<i32>,
    d: Range<i32>,
}

fn limits(slip: Slip) -> Limits {
    let plain = Limits { samples: 0..40_961, n: 1..65, d: -2048..2048 };
    match slip {
        Slip::Most40959 => Limits { samples: 0..40_960, ..plain },
        Slip::Most40961 => Limits { samples: 0..40_962, ..plain },
        Slip::EmptyRefused => Limits { samples: 1..40_961, ..plain },
        Slip::N0 => Limits { n: 0..65, ..plain },
        Slip::N65 => Limits { n: 1..66, ..plain },
        Slip::LeastOffset => Limits { d: -2047..2048, ..plain },
        Slip::Offset2049 => Limits { d: -2049..2048, ..plain },
        Slip::Offset2048 => Limits { d: -2048..2049, ..plain },
        _ => plain,
    }
}

fn number(slip: Slip, ram_bytes: usize, screen: second::Screen, input: &Input) -> u32 {
    let Limits { samples, n, d } = limits(slip);
    let fits = samples.contains(&input.samples.len()) && n.contains(&input.n) && d.contains(&input.d);
    let beyond = slip == Slip::OffsetBeyond && i64::from(input.d) > input.samples.len() as i64;
    let ten = !fits || beyond;
    // 3 and 5 do not look at the rest.
    let good = Input { samples: &[], n: 1, d: 0, ..*input };
    let ram_bytes = match slip {
        Slip::RamLonger if ram_bytes == 4_194_305 => 4_194_304,
        _ => ram_bytes,
    };
    match (panel_number(ram_bytes, screen, &good), ten) {
        (5, true) if slip == Slip::TenBefore5 => 10,
        (3, true) if slip == Slip::TenBefore3 => 10,
        (0, true) => 10,
        (number, _) => number,
    }
}

/// The numbers of the samples that a column takes, whether they exist or not.
fn taken(slip: Slip, input: &Input, x: i128) -> Range<i128> {
    let d = i128::from(if slip == Slip::OffsetTurned { -input.d } else { input.d });
    let n = i128::from(input.n);
    let (start, end) = (x * n + d, x * n + d + n);
    match slip {
        Slip::OneBefore => start - 1..end,
        Slip::OneAfter => start..end + 1,
        Slip::NoFirst => start + 1..end,
        Slip::NoLast if n > 1 => start..end - 1,
        Slip::OffsetInColumns => (x + d) * n..(x + d) * n + n,
        // What is less than a column to the left of the first is not below 0 then.
        Slip::ColumnTowardZero if x == 0 => start - n + 1..end,
        _ => start..end,
    }
}

fn values(slip: Slip, input: &Input, x: i128) -> Vec<i128> {
    let (mut found, mut missing) = (Vec::new(), false);
    for number in taken(slip, input, x) {
        let place = usize::try_from(number).ok().filter(|&place| slip != Slip::Samples32768 || place < 32_768);
        match place.and_then(|place| input.samples.get(place)) {
            Some(&sample) if slip == Slip::Unsigned => found.push(i128::from(sample as u16)),
            Some(&sample) => found.push(i128::from(sample)),
            None => missing = true,
        }
    }
    let as_silence = match slip {
        Slip::NoneDrawn => found.is_empty(),
        Slip::MissingZero => missing && !found.is_empty(),
        _ => false,
    };
    if as_silence {
        found.push(0);
    }
    found
}

/// The largest and the smallest.
fn extremes(slip: Slip, values: &[i128]) -> Option<(i128, i128)> {
    let (largest, smallest) = (*values.iter().max()?, *values.iter().min()?);
    match slip {
        Slip::FromZero => Some((largest.max(0), smallest.min(0))),
        Slip::ElseSmallest => {
            let (mut high, mut low) = (-32768, 32767);
            for &v in values {
                if v > high {
                    high = v;
                } else if v < low {
                    low = v;
                }
            }
            Some((high, low.min(high)))
        }
        _ => Some((largest, smallest)),
    }
}

fn row_of(slip: Slip, v: i128, height: i128) -> i128 {
    let row = match slip {
        Slip::RowRounded => ((32767 - v) * height + 32768) / 65536,
        Slip::RowTowardZero => height / 2 + (-1 - v) * height / 65536,
        Slip::HeightLess1 => (32767 - v) * (height - 1) / 65536,
        Slip::Row65535 => (32767 - v) * height / 65535,
        Slip::Row32768 => (32768 - v) * height / 65536,
        Slip::Product24 => (32767 - v) * height % (1 << 24) / 65536,
        Slip::UpsideDown => height - 1 - second::panel::row_of(v, height),
        _ => second::panel::row_of(v, height),
    };
    // Not past the screen, or the slip would be seen at once.
    row.clamp(0, height - 1)
}

/// The rows that a column fills, from the first to the last.
fn rows(slip: Slip, input: &Input, height: i128, x: i128) -> Option<Vec<i128>> {
    let x = if slip == Slip::ColumnOut { x - 1 } else { x };
    let (largest, smallest) = extremes(slip, &values(slip, input, x))?;
    let (top, bottom) = (row_of(slip, largest, height), row_of(slip, smallest, height));
    // Upside down they are in the other order.
    let (top, bottom) = (top.min(bottom), top.max(bottom));
    let middle = ((bottom - top) % 2 == 0).then_some((top + bottom) / 2);
    let mut rows: Vec<i128> = (top..=bottom).collect();
    match slip {
        Slip::NoTop if top < bottom => rows.retain(|&y| y != top),
        Slip::NoBottom => rows.retain(|&y| y != bottom),
        Slip::NoRow479 => rows.retain(|&y| y != 479),
        Slip::DiagonalMissed => rows.retain(|&y| Some(y) != middle),
        Slip::DiagonalTwice => rows.extend(middle),
        Slip::Joined if x > 0 => {
            let (first, last) = second::panel::bar(input, height, x - 1).unwrap_or((top, bottom));
            rows = (top.min(last)..=bottom.max(first)).collect();
        }
        _ => {}
    }
    Some(rows)
}

/// Draws one pixel; whether it counts.
fn pixel(slip: Slip, ram: &mut [u8], screen: second::Screen, colour: u16, x: i128, y: i128) -> bool {
    let place = (y * screen.width() + x) * 2;
    let colour_place = i128::from(screen.colour_start) + place;
    let depth_place = i128::from(screen.depth_start) + place;
    let before = (second::half_word(ram, colour_place), second::half_word(ram, depth_place));
    if slip == Slip::DepthAbove && before.1 == 0 {
        return true;
    }
    let colour = if slip == Slip::Green5 { colour & !32 } else { colour };
    second::set_half_word(ram, colour_place, i128::from(colour));
    if slip != Slip::NoDepth {
        second::set_half_word(ram, depth_place, if slip == Slip::DepthFar { 65535 } else { 0 });
    }
    slip != Slip::CountChanged || before != (i128::from(colour), 0)
}

pub fn panel(slip: Slip, ram: &mut [u8], screen: Screen, input: &Input) -> Panelled {
    let screen = second_screen(screen);
    if slip == Slip::EmptyFirst && input.samples.is_empty() {
        return Panelled { number: 0, pixels: 0 };
    }
    let number = number(slip, ram.len(), screen, input);
    let drawn_anyway = slip == Slip::RefusalDraws && number == 10 && (0..=256).contains(&input.n);
    if number != 0 && !drawn_anyway {
        return seen(second::panel::Panelled { number, pixels: 0 });
    }
    if slip == Slip::Clears {
        second::clear(ram, screen, 0, 65535);
    }
    let (mut pixels, mut bars) = (0, 0);
    let width = match slip {
        Slip::LastColumn => screen.width() - 1,
        Slip::Columns512 => screen.width().min(512),
        _ => screen.width(),
    };
    for x in 0..width {
        let Some(rows) = rows(slip, input, screen.height(), x) else { continue };
        bars += 1;
        for y in rows {
            pixels += u32::from(pixel(slip, ram, screen, input.colour, x, y));
        }
    }
    let counted = if slip == Slip::CountBars { bars } else { pixels };
    Panelled { number, pixels: if number == 0 { counted } else { 0 } }
}
