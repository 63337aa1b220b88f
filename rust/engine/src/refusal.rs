//! The numbers that calls and halting steps answer, with a sentence for each.

use std::error::Error;
use std::fmt;

/// Why a call was refused: the number it answered. The lowest number that
/// applies to the call wins, and a refused call changes nothing.
///
/// ```
/// use merikohin::Refusal;
/// assert_eq!(Refusal::VertexOutOfRange.number(), 6);
/// assert_eq!(Refusal::VertexOutOfRange.to_string(), "a vertex number is outside -8192..8191");
/// ```
#[derive(Clone, Copy, Debug, PartialEq, Eq, PartialOrd, Ord, Hash)]
#[non_exhaustive]
pub enum Refusal {
    ProgramTooLong = 1,
    MemoryNot1024 = 2,
    RamTooLong = 3,
    StateIllFormed = 4,
    ScreenNotSound = 5,
    VertexOutOfRange = 6,
    EdgeOutOfRange = 7,
    RowOutOfRange = 8,
    NoPlane = 9,
    NoPanel = 10,
}

impl Refusal {
    /// All of them, from the lowest.
    pub const ALL: [Refusal; 10] = [
        Refusal::ProgramTooLong,
        Refusal::MemoryNot1024,
        Refusal::RamTooLong,
        Refusal::StateIllFormed,
        Refusal::ScreenNotSound,
        Refusal::VertexOutOfRange,
        Refusal::EdgeOutOfRange,
        Refusal::RowOutOfRange,
        Refusal::NoPlane,
        Refusal::NoPanel,
    ];

    /// The number, as C has it.
    #[must_use]
    pub const fn number(self) -> u32 {
        self as u32
    }

    /// The refusal of this number; none of 0 and of numbers that no call
    /// answers.
    #[must_use]
    pub fn from_number(number: u32) -> Option<Refusal> {
        Refusal::ALL.into_iter().find(|refusal| refusal.number() == number)
    }

    /// What it means, in a sentence without a full stop.
    #[must_use]
    pub const fn says(self) -> &'static str {
        match self {
            Refusal::ProgramTooLong => "the program is longer than 1,024 words",
            Refusal::MemoryNot1024 => "the data memory is not of 1,024 words",
            Refusal::RamTooLong => "the RAM is longer than 4,194,304 bytes",
            Refusal::StateIllFormed => "the machine state is ill-formed",
            Refusal::ScreenNotSound => "the screen is not sound",
            Refusal::VertexOutOfRange => "a vertex number is outside -8192..8191",
            Refusal::EdgeOutOfRange => "an edge value at some pixel of the screen is outside signed 32 bits",
            Refusal::RowOutOfRange => "the row is not below the height",
            Refusal::NoPlane => {
                "a value is outside 0..32767, the doubled area is not positive, or c, a or b is outside signed 32 bits"
            }
            Refusal::NoPanel => {
                "there are more than 40,960 samples, the samples a column are outside 1..64, or the offset is outside -2048..2047"
            }
        }
    }
}

impl fmt::Display for Refusal {
    fn fmt(&self, f: &mut fmt::Formatter<'_>) -> fmt::Result {
        f.write_str(self.says())
    }
}

impl Error for Refusal {}

/// Why a step halted. A program ends with [`Halt::Place`]: there is no stop
/// instruction, and running past the last word is how one stops.
///
/// Where several apply to a step, the first in the order of [`Halt::ALL`] is
/// given.
#[derive(Clone, Copy, Debug, PartialEq, Eq, Hash)]
#[non_exhaustive]
pub enum Halt {
    Place = 12,
    Opcode = 11,
    DataAddress = 13,
    MoveData = 15,
    MoveRam = 16,
    Screen = 17,
    Tree = 14,
}

impl Halt {
    /// All of them, in the order in which they are judged.
    pub const ALL: [Halt; 7] =
        [Halt::Place, Halt::Opcode, Halt::DataAddress, Halt::MoveData, Halt::MoveRam, Halt::Screen, Halt::Tree];

    /// The number, as C has it.
    #[must_use]
    pub const fn number(self) -> u32 {
        self as u32
    }

    /// The halt of this number; none of 0 and of numbers that no step halts
    /// with.
    #[must_use]
    pub fn from_number(number: u32) -> Option<Halt> {
        Halt::ALL.into_iter().find(|halt| halt.number() == number)
    }

    /// What it means, in a sentence without a full stop.
    #[must_use]
    pub const fn says(self) -> &'static str {
        match self {
            Halt::Place => "the place is not below the program's length: the program has ended",
            Halt::Opcode => "the opcode is above 40",
            Halt::DataAddress => "an LD or ST address is above 1,023, or a DOT start above 1,020",
            Halt::MoveData => "a READ or WRITE data address is above 1,008",
            Halt::MoveRam => "a READ or WRITE address is not a multiple of 4, or its 64 bytes are not all in RAM",
            Halt::Screen => "SCRSET's screen is not sound, or CLS or TREESET has no screen",
            Halt::Tree => {
                "TREESET's place is refused, TREEIN, TREEVAL or TREEPUT has no tree, or TREEVAL's imm is above 3"
            }
        }
    }
}

impl fmt::Display for Halt {
    fn fmt(&self, f: &mut fmt::Formatter<'_>) -> fmt::Result {
        f.write_str(self.says())
    }
}
