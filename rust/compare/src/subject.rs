//! What is compared with the second program: the engine, or (to show that the
//! comparison can fail) a deliberately wrong variant of the second program.

use crate::case::{second_screen, second_triangle, Area};
use crate::machine::broken;
use crate::machine::case::plain_state;
use crate::panel;
use crate::panel::broken::Slip as Panel;
use crate::through;
use merikohin::raw::{self, Drawn, Panelled, Ran, Stepped};
use merikohin::{Plane, Refusal, Screen, State, Triangle};

/// The slips a wrong variant can have: eight of the drawing, thirteen of the
/// plane through three values, those of the panel, the others of the machine.
#[derive(Clone, Copy, Debug, PartialEq, Eq)]
pub enum Slip {
    /// A pixel is sampled at its upper left corner, as 01 had it before 02.
    UpperLeft,
    /// The same in x alone: (8x, 8y + 4).
    UpperLeftX,
    /// The same in y alone: (8x + 4, 8y).
    UpperLeftY,
    /// An edge value of zero counts as inside for every edge.
    Ties,
    /// Depths are compared as signed half-words.
    SignedDepth,
    /// One pixel too many is counted as covered when some group of 16 pixels
    /// is partly covered.
    Count,
    /// A refused clear or triangle changes a byte.
    RefusalWrites,
    /// The depth row is the row's colours.
    ColoursForDepths,
    /// The three numbers of a plane are rounded toward zero.
    TowardZero,
    /// c is not raised.
    NotRaised,
    /// c is raised by 1,118.
    RaisedBy1118,
    /// c is at the upper left corner of pixel (0, 0).
    FromTheCorner,
    /// a and b are the steps for each eighth of a pixel.
    StepsPerEighth,
    /// The steps for each eighth are rounded, and then taken eight times.
    EighthsRounded,
    /// A doubled area of 0 is accepted.
    NoArea,
    /// A negative doubled area is accepted.
    EitherWay,
    /// A value of 32,768 is accepted.
    Value32768,
    /// 9 goes before 6.
    NineFirst,
    /// c is judged before it is raised.
    JudgedUnraised,
    /// a and b are not judged, and keep 32 bits.
    StepsNotJudged,
    /// A refusal gives the plane as far as it was worked out.
    RefusedPlane,
    /// One of the panel.
    Panel(Panel),
    /// DOT adds four products before the shift.
    DotSum,
    /// TREEIN and TREEVAL use the new r1 for the leaves.
    NewR1,
    /// TREEIN and TREEVAL add r2 to r1 sixteen times, also when they are one
    /// register.
    SameRegister,
    /// TREEVAL 0 is judged against the depth the leaf holds, where it holds one.
    OldDepth,
    /// The flags stay when R0 is the target.
    R0Flags,
    /// MULF rounds toward zero.
    MulfTowardZero,
    /// READ and WRITE clear the zero flag.
    TransferFlags,
    /// SCRSET keeps a tree that fits on the new screen.
    TreeKept,
    /// CALL puts the next place in R31 before address is worked out.
    LinkFirst,
    /// READ and WRITE look at the RAM address first.
    HaltOrder,
    /// A run works on its first step and idles afterwards.
    Idle,
    /// A single step that halts is told as carried out.
    HaltingStep,
    /// A single step is two.
    TwoSteps,
    /// In a run of `LONG_RUN` steps or more, as all slips of the table: RECP of
    /// 347 is one too large.
    TableEntry,
    /// RECP of 1 to 511 is the table's next entry.
    TableShifted,
    /// RECP of 512 is past the table's end, and 0.
    Table512,
    /// RECP of 513 is the table's last entry.
    Table513,
    /// RECP of 0 is a place of the table that holds 0.
    TableZero,
    /// RECP looks the low ten bits up, whatever stands above them.
    TableLowBits,
    /// RECP of -1 to -512 is looked up by its size, and keeps no sign.
    TableSign,
    /// RECP leaves the flags where it looks up.
    TableFlags,
    /// A shift takes the low five bits of its amount, as 01 had it before 02.
    ShiftFiveBits,
    /// A shift takes the low six bits.
    ShiftSixBits,
    /// A shift takes the low 16 bits of a register, as many as imm has.
    ShiftLowHalf,
    /// A shift by a register reads it as signed, and by less than 0 does nothing.
    ShiftSignedRegister,
    /// The same of imm, sign-extended.
    ShiftSignedImm,
    /// A shift by 32 does nothing; from 33 on it is right.
    Shift32,
    /// A shift by more than 31 is one by 31, which is right for ASR alone.
    ShiftCapped,
    /// From 32 on, ASR gives 0 whatever the sign.
    AsrZero,
    /// From 32 on, LSR gives 0 or -1 by the sign.
    LsrSign,
    /// A shift by 32 or more leaves the flags.
    ShiftFlags,
    /// In a run of `LONG_RUN` steps or more, a shift takes the low five bits.
    ShiftLongRuns,
}

impl Slip {
    pub fn part(self) -> Part {
        match self {
            Slip::UpperLeft
            | Slip::UpperLeftX
            | Slip::UpperLeftY
            | Slip::Ties
            | Slip::SignedDepth
            | Slip::Count
            | Slip::RefusalWrites
            | Slip::ColoursForDepths => Part::Drawing,
            Slip::TowardZero
            | Slip::NotRaised
            | Slip::RaisedBy1118
            | Slip::FromTheCorner
            | Slip::StepsPerEighth
            | Slip::EighthsRounded
            | Slip::NoArea
            | Slip::EitherWay
            | Slip::Value32768
            | Slip::NineFirst
            | Slip::JudgedUnraised
            | Slip::StepsNotJudged
            | Slip::RefusedPlane => Part::Through,
            Slip::Panel(_) => Part::Panel,
            _ => Part::Machine,
        }
    }
}

/// What is compared: the calls that draw, the plane through three values, the
/// waveform panel, or the machine.
#[derive(Clone, Copy, Debug, PartialEq, Eq)]
pub enum Part {
    Drawing,
    Through,
    Panel,
    Machine,
}

pub const SLIPS: [(&str, Slip); 103] = [
    ("upper-left", Slip::UpperLeft),
    ("upper-left-x", Slip::UpperLeftX),
    ("upper-left-y", Slip::UpperLeftY),
    ("ties", Slip::Ties),
    ("signed-depth", Slip::SignedDepth),
    ("count", Slip::Count),
    ("refusal-writes", Slip::RefusalWrites),
    ("colours-for-depths", Slip::ColoursForDepths),
    ("toward-zero", Slip::TowardZero),
    ("not-raised", Slip::NotRaised),
    ("raised-by-1118", Slip::RaisedBy1118),
    ("from-the-corner", Slip::FromTheCorner),
    ("steps-per-eighth", Slip::StepsPerEighth),
    ("eighths-rounded", Slip::EighthsRounded),
    ("no-area", Slip::NoArea),
    ("either-way", Slip::EitherWay),
    ("value-32768", Slip::Value32768),
    ("nine-first", Slip::NineFirst),
    ("judged-unraised", Slip::JudgedUnraised),
    ("steps-not-judged", Slip::StepsNotJudged),
    ("refused-plane", Slip::RefusedPlane),
    ("panel-column-out", Slip::Panel(Panel::ColumnOut)),
    ("panel-last-column", Slip::Panel(Panel::LastColumn)),
    ("panel-columns-512", Slip::Panel(Panel::Columns512)),
    ("panel-one-before", Slip::Panel(Panel::OneBefore)),
    ("panel-one-after", Slip::Panel(Panel::OneAfter)),
    ("panel-no-first", Slip::Panel(Panel::NoFirst)),
    ("panel-no-last", Slip::Panel(Panel::NoLast)),
    ("panel-offset-turned", Slip::Panel(Panel::OffsetTurned)),
    ("panel-offset-in-columns", Slip::Panel(Panel::OffsetInColumns)),
    ("panel-samples-32768", Slip::Panel(Panel::Samples32768)),
    ("panel-column-toward-zero", Slip::Panel(Panel::ColumnTowardZero)),
    ("panel-none-drawn", Slip::Panel(Panel::NoneDrawn)),
    ("panel-missing-zero", Slip::Panel(Panel::MissingZero)),
    ("panel-unsigned", Slip::Panel(Panel::Unsigned)),
    ("panel-from-zero", Slip::Panel(Panel::FromZero)),
    ("panel-else-smallest", Slip::Panel(Panel::ElseSmallest)),
    ("panel-joined", Slip::Panel(Panel::Joined)),
    ("panel-no-top", Slip::Panel(Panel::NoTop)),
    ("panel-no-bottom", Slip::Panel(Panel::NoBottom)),
    ("panel-no-row-479", Slip::Panel(Panel::NoRow479)),
    ("panel-diagonal-missed", Slip::Panel(Panel::DiagonalMissed)),
    ("panel-diagonal-twice", Slip::Panel(Panel::DiagonalTwice)),
    ("panel-upside-down", Slip::Panel(Panel::UpsideDown)),
    ("panel-row-rounded", Slip::Panel(Panel::RowRounded)),
    ("panel-row-toward-zero", Slip::Panel(Panel::RowTowardZero)),
    ("panel-height-less-1", Slip::Panel(Panel::HeightLess1)),
    ("panel-row-65535", Slip::Panel(Panel::Row65535)),
    ("panel-row-32768", Slip::Panel(Panel::Row32768)),
    ("panel-product-24", Slip::Panel(Panel::Product24)),
    ("panel-no-depth", Slip::Panel(Panel::NoDepth)),
    ("panel-depth-far", Slip::Panel(Panel::DepthFar)),
    ("panel-green-5", Slip::Panel(Panel::Green5)),
    ("panel-depth-above", Slip::Panel(Panel::DepthAbove)),
    ("panel-count-bars", Slip::Panel(Panel::CountBars)),
    ("panel-count-changed", Slip::Panel(Panel::CountChanged)),
    ("panel-clears", Slip::Panel(Panel::Clears)),
    ("panel-refusal-draws", Slip::Panel(Panel::RefusalDraws)),
    ("panel-ten-before-5", Slip::Panel(Panel::TenBefore5)),
    ("panel-ten-before-3", Slip::Panel(Panel::TenBefore3)),
    ("panel-ram-longer", Slip::Panel(Panel::RamLonger)),
    ("panel-empty-first", Slip::Panel(Panel::EmptyFirst)),
    ("panel-most-40959", Slip::Panel(Panel::Most40959)),
    ("panel-most-40961", Slip::Panel(Panel::Most40961)),
    ("panel-empty-refused", Slip::Panel(Panel::EmptyRefused)),
    ("panel-n-0", Slip::Panel(Panel::N0)),
    ("panel-n-65", Slip::Panel(Panel::N65)),
    ("panel-least-offset", Slip::Panel(Panel::LeastOffset)),
    ("panel-offset-2049", Slip::Panel(Panel::Offset2049)),
    ("panel-offset-2048", Slip::Panel(Panel::Offset2048)),
    ("panel-offset-beyond", Slip::Panel(Panel::OffsetBeyond)),
    ("dot-sum", Slip::DotSum),
    ("new-r1", Slip::NewR1),
    ("same-register", Slip::SameRegister),
    ("old-depth", Slip::OldDepth),
    ("r0-flags", Slip::R0Flags),
    ("mulf-toward-zero", Slip::MulfTowardZero),
    ("transfer-flags", Slip::TransferFlags),
    ("tree-kept", Slip::TreeKept),
    ("link-first", Slip::LinkFirst),
    ("halt-order", Slip::HaltOrder),
    ("idle", Slip::Idle),
    ("halting-step", Slip::HaltingStep),
    ("two-steps", Slip::TwoSteps),
    ("table-entry", Slip::TableEntry),
    ("table-shifted", Slip::TableShifted),
    ("table-512", Slip::Table512),
    ("table-513", Slip::Table513),
    ("table-zero", Slip::TableZero),
    ("table-low-bits", Slip::TableLowBits),
    ("table-sign", Slip::TableSign),
    ("table-flags", Slip::TableFlags),
    ("shift-five-bits", Slip::ShiftFiveBits),
    ("shift-six-bits", Slip::ShiftSixBits),
    ("shift-low-half", Slip::ShiftLowHalf),
    ("shift-signed-register", Slip::ShiftSignedRegister),
    ("shift-signed-imm", Slip::ShiftSignedImm),
    ("shift-32", Slip::Shift32),
    ("shift-capped", Slip::ShiftCapped),
    ("asr-zero", Slip::AsrZero),
    ("lsr-sign", Slip::LsrSign),
    ("shift-flags", Slip::ShiftFlags),
    ("shift-long-runs", Slip::ShiftLongRuns),
];

#[derive(Clone, Copy, Debug, PartialEq, Eq)]
pub enum Subject {
    Engine,
    Broken(Slip),
}

/// What a row call was seen to answer.
#[derive(Clone, Copy, Debug, PartialEq, Eq)]
pub struct RowSeen {
    pub number: u32,
    pub start: u64,
    pub length: u64,
    /// Where the slice handed back begins, counted in bytes from the address
    /// of the RAM lent, and its length; none if start and length point outside.
    pub part: Option<(usize, usize)>,
}

/// What the plane through three values was seen to be.
#[derive(Clone, Copy, Debug, PartialEq, Eq)]
pub struct ThroughSeen {
    pub number: u32,
    pub plane: Plane,
    /// Whether the Rust layer answers alike: the same plane, or the same number.
    pub alike_in_rust: bool,
}

/// As whom the panel is asked for.
#[derive(Clone, Copy, Debug, PartialEq, Eq)]
pub enum Way {
    C,
    Rust,
}

impl Way {
    pub fn words(self) -> &'static str {
        match self {
            Way::C => "as C has it",
            Way::Rust => "once more, as Rust has it",
        }
    }
}

fn part_of(ram: &[u8], part: &[u8]) -> (usize, usize) {
    ((part.as_ptr() as usize).wrapping_sub(ram.as_ptr() as usize), part.len())
}

/// What the second program answers to a row of an area.
pub fn second_row(ram: &[u8], screen: second::Screen, area: Area, row: u32) -> RowSeen {
    let (number, part) = match area {
        Area::Colours => second::row(ram, screen, row),
        Area::Depths => second::depth_row(ram, screen, row),
    };
    let (start, length) = part_of(ram, part);
    RowSeen { number, start: start as u64, length: length as u64, part: Some((start, length)) }
}

/// What the engine answers, as C has it and as Rust has it.
fn engine_row(ram: &[u8], s: Screen, area: Area, row: u32) -> RowSeen {
    let located = match area {
        Area::Colours => raw::row(ram, s, row),
        Area::Depths => raw::depth_row(ram, s, row),
    };
    let end = u128::from(located.start) + u128::from(located.length);
    let part = if end <= ram.len() as u128 {
        let answer = match area {
            Area::Colours => merikohin::row(ram, s, row),
            Area::Depths => merikohin::depth_row(ram, s, row),
        };
        (number_of(answer) == located.number).then(|| part_of(ram, answer.unwrap_or(&ram[..0])))
    } else {
        None
    };
    RowSeen { number: located.number, start: located.start, length: located.length, part }
}

/// What the engine answers, as C has it and as Rust has it.
fn engine_through(case: &through::case::Case) -> ThroughSeen {
    let (vertices, values) = (case.vertices.into(), case.values.into());
    let raw::Through { number, plane } = raw::plane_through(vertices, values);
    let alike_in_rust = match merikohin::plane_through(vertices, values) {
        Ok(answer) => number == 0 && answer == plane,
        Err(refusal) => number == refusal.number(),
    };
    ThroughSeen { number, plane, alike_in_rust }
}

/// What the engine answers, as C has it or as Rust has it.
fn engine_panel(way: Way, ram: &mut [u8], samples: &[i16], case: &panel::case::Case) -> Panelled {
    let panel::case::Case { screen, per_column, offset, colour, .. } = *case;
    match way {
        Way::C => raw::panel(ram, screen, samples, per_column, offset, colour),
        Way::Rust => match merikohin::panel(ram, screen, samples, per_column, offset, colour) {
            Ok(pixels) => Panelled { number: 0, pixels },
            Err(refusal) => Panelled { number: refusal.number(), pixels: 0 },
        },
    }
}

impl Subject {
    pub fn name(self) -> &'static str {
        match self {
            Subject::Engine => "engine",
            Subject::Broken(_) => "broken",
        }
    }

    /// The words of the command line that choose this subject.
    pub fn option(self) -> String {
        match self {
            Subject::Engine => String::new(),
            Subject::Broken(slip) => {
                let found = SLIPS.iter().find(|(_, known)| *known == slip);
                found.map_or(String::new(), |(name, _)| format!(" --broken {name}"))
            }
        }
    }

    pub fn clear(self, ram: &mut [u8], s: Screen, colour: u16, depth: u16) -> u32 {
        match self {
            Subject::Engine => number_of(merikohin::clear(ram, s, colour, depth)),
            Subject::Broken(slip) => {
                let number = second::clear(ram, second_screen(s), colour, depth);
                if number != 0 {
                    refused(slip, ram);
                }
                number
            }
        }
    }

    pub fn draw(self, ram: &mut [u8], s: Screen, t: Triangle) -> Drawn {
        match self {
            Subject::Engine => raw::draw(ram, s, t),
            Subject::Broken(slip) => broken_draw(slip, ram, second_screen(s), &second_triangle(&t)),
        }
    }

    pub fn row_check(self, ram: &[u8], s: Screen, row: u32) -> u32 {
        match self {
            Subject::Engine => number_of(merikohin::row_check(ram, s, row)),
            Subject::Broken(_) => second::row_check(ram, second_screen(s), row),
        }
    }

    pub fn row(self, ram: &[u8], s: Screen, area: Area, row: u32) -> RowSeen {
        match self {
            Subject::Engine => engine_row(ram, s, area, row),
            Subject::Broken(Slip::ColoursForDepths) => second_row(ram, second_screen(s), Area::Colours, row),
            Subject::Broken(_) => second_row(ram, second_screen(s), area, row),
        }
    }

    pub fn plane_through(self, case: &through::case::Case) -> ThroughSeen {
        match self {
            Subject::Engine => engine_through(case),
            Subject::Broken(slip) => through::broken::plane_through(slip, case),
        }
    }

    pub fn panel(self, way: Way, ram: &mut [u8], samples: &[i16], case: &panel::case::Case) -> Panelled {
        let input = panel::check::second_input(case, samples);
        match self {
            Subject::Engine => engine_panel(way, ram, samples, case),
            Subject::Broken(Slip::Panel(slip)) => panel::broken::panel(slip, ram, case.screen, &input),
            Subject::Broken(_) => panel::check::seen(second::panel::panel(ram, second_screen(case.screen), &input)),
        }
    }

    pub fn fresh(self) -> State {
        match self {
            Subject::Engine => raw::fresh(),
            Subject::Broken(_) => plain_state(&second::machine::fresh()),
        }
    }

    pub fn run(self, program: &[u32], data: &mut [u32], ram: &mut [u8], state: State, budget: u64) -> Ran {
        match self {
            Subject::Engine => raw::run(program, data, ram, state, budget),
            Subject::Broken(slip) => broken::run(slip, program, data, ram, state, budget),
        }
    }

    pub fn step(self, program: &[u32], data: &mut [u32], ram: &mut [u8], state: State) -> Stepped {
        match self {
            Subject::Engine => raw::step(program, data, ram, state),
            Subject::Broken(slip) => broken::step(slip, program, data, ram, state),
        }
    }
}

/// The number of an answer of the Rust layer.
fn number_of<T>(answer: Result<T, Refusal>) -> u32 {
    answer.map_or_else(Refusal::number, |_| 0)
}

fn refused(slip: Slip, ram: &mut [u8]) {
    if slip == Slip::RefusalWrites {
        if let Some(last) = ram.last_mut() {
            *last ^= 1;
        }
    }
}

/// Whether a triangle covers a pixel, with one slip.
fn broken_covers(slip: Slip, t: &second::Triangle, x: i128, y: i128) -> bool {
    let (px, py) = second::sample_point(x, y);
    let (px, py) = match slip {
        Slip::UpperLeft => (8 * x, 8 * y),
        Slip::UpperLeftX => (8 * x, py),
        Slip::UpperLeftY => (px, 8 * y),
        _ => (px, py),
    };
    second::edges(&t.vertices).iter().all(|&(from, to)| match slip {
        Slip::Ties => second::edge_value(from, to, px, py) >= 0,
        _ => second::inside(from, to, px, py),
    })
}

/// The second program's drawer, with one slip.
fn broken_draw(slip: Slip, ram: &mut [u8], screen: second::Screen, t: &second::Triangle) -> Drawn {
    let number = second::draw_number(ram.len(), screen, t);
    if number != 0 {
        refused(slip, ram);
        return Drawn { number, covered: 0, written: 0 };
    }
    let (mut covered, mut written, mut partly) = (0, 0, false);
    for y in 0..screen.height() {
        for group in 0..screen.groups() {
            let mut in_group = 0;
            for x in 16 * group..16 * group + 16 {
                if !broken_covers(slip, t, x, y) {
                    continue;
                }
                in_group += 1;
                let place = (y * screen.width() + x) * 2;
                let depth_place = i128::from(screen.depth_start) + place;
                let depth = second::depth_at(t, x, y);
                let stored = second::half_word(ram, depth_place);
                let passes = match slip {
                    Slip::SignedDepth => depth as u16 as i16 <= stored as u16 as i16,
                    _ => depth <= stored,
                };
                if passes {
                    written += 1;
                    let colour_place = i128::from(screen.colour_start) + place;
                    second::set_half_word(ram, colour_place, second::colour_at(t, x, y));
                    second::set_half_word(ram, depth_place, depth);
                }
            }
            covered += in_group;
            partly |= in_group > 0 && in_group < 16;
        }
    }
    if slip == Slip::Count && partly {
        covered += 1;
    }
    Drawn { number: 0, covered, written }
}
