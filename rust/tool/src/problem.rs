//! What can go wrong: a number, its sentence, the value and the place, and the
//! status with which the program then ends.

use merikohin::{Halt, Refusal};
use std::fmt;

/// The statuses beside 0, done.
pub mod status {
    pub const NO: u8 = 1;
    pub const USAGE: u8 = 2;
    pub const REFUSED: u8 = 3;
    pub const SYSTEM: u8 = 4;
    pub const HALTED: u8 = 5;
}

/// The tool's own numbers, with their sentences and statuses.
pub const OWN: [(u32, &str, u8); 19] = [
    (USAGE, "the command line is not understood", status::USAGE),
    (UNREADABLE, "the file cannot be read", status::SYSTEM),
    (UNWRITABLE, "the file cannot be written", status::SYSTEM),
    (SUFFIX, "the file's suffix is none that is known here", status::USAGE),
    (NO_SCREEN, "there is no screen to write", status::REFUSED),
    (HALF_A_WORD, "the program file is not of whole words of four bytes", status::REFUSED),
    (SOUND, "the sound file is not taken", status::REFUSED),
    (NO_CHANNEL, "the file has no such channel", status::REFUSED),
    (LINE, "the line is not understood", status::REFUSED),
    (NO_INSTRUCTION, "there is no such instruction", status::REFUSED),
    (OPERANDS, "the instruction has other operands", status::REFUSED),
    (NO_FIT, "the number does not fit", status::REFUSED),
    (UNKNOWN_NAME, "the name is not known", status::REFUSED),
    (NAME_TWICE, "the name is taken", status::REFUSED),
    (NO_NUMBER, "this is not a number", status::REFUSED),
    (SCREEN_FIRST, "a scene begins with its one screen", status::REFUSED),
    (OFF_SCREEN, "the pixel is not on the screen", status::REFUSED),
    (NO_COLUMN, "the panel has no such column", status::REFUSED),
    (NO_SAMPLE, "the file has no such sample", status::REFUSED),
];
pub const USAGE: u32 = 100;
pub const UNREADABLE: u32 = 101;
pub const UNWRITABLE: u32 = 102;
pub const SUFFIX: u32 = 103;
pub const NO_SCREEN: u32 = 104;
pub const HALF_A_WORD: u32 = 105;
pub const SOUND: u32 = 106;
pub const NO_CHANNEL: u32 = 107;
pub const LINE: u32 = 110;
pub const NO_INSTRUCTION: u32 = 111;
pub const OPERANDS: u32 = 112;
pub const NO_FIT: u32 = 113;
pub const UNKNOWN_NAME: u32 = 114;
pub const NAME_TWICE: u32 = 115;
pub const NO_NUMBER: u32 = 116;
pub const SCREEN_FIRST: u32 = 120;
pub const OFF_SCREEN: u32 = 121;
pub const NO_COLUMN: u32 = 122;
pub const NO_SAMPLE: u32 = 123;

/// The sentence of a number and the status with which it ends the program.
pub fn meaning(number: u32) -> Option<(&'static str, u8)> {
    let refused = Refusal::from_number(number).map(|refusal| (refusal.says(), status::REFUSED));
    let halted = Halt::from_number(number).map(|halt| (halt.says(), status::HALTED));
    let own = OWN.iter().find(|row| row.0 == number).map(|row| (row.1, row.2));
    refused.or(halted).or(own)
}

/// Where: a file, and a line of it counted from 1.
#[derive(Clone, Debug, PartialEq, Eq)]
pub struct Place {
    pub file: String,
    pub line: Option<usize>,
}

impl Place {
    pub fn file(file: &str) -> Place {
        Place { file: file.into(), line: None }
    }

    pub fn line(file: &str, line: usize) -> Place {
        Place { file: file.into(), line: Some(line) }
    }
}

impl fmt::Display for Place {
    fn fmt(&self, f: &mut fmt::Formatter<'_>) -> fmt::Result {
        match self.line {
            Some(line) => write!(f, "{}, line {line}", self.file),
            None => f.write_str(&self.file),
        }
    }
}

#[derive(Clone, Debug, PartialEq, Eq)]
pub struct Problem {
    pub number: u32,
    pub value: String,
    pub place: Option<Place>,
}

impl Problem {
    pub fn new(number: u32, value: impl Into<String>) -> Problem {
        Problem { number, value: value.into(), place: None }
    }

    /// A refusal of the engine, of this value.
    pub fn refused(refusal: Refusal, value: impl Into<String>) -> Problem {
        Problem::new(refusal.number(), value)
    }

    /// The same, at a place; one that is known already stays.
    pub fn at(mut self, place: Place) -> Problem {
        self.place = self.place.or(Some(place));
        self
    }

    pub fn status(&self) -> u8 {
        meaning(self.number).map_or(status::REFUSED, |(_, status)| status)
    }
}

impl fmt::Display for Problem {
    fn fmt(&self, f: &mut fmt::Formatter<'_>) -> fmt::Result {
        let sentence = meaning(self.number).map_or("", |(sentence, _)| sentence);
        write!(f, "{}: {sentence}", self.number)?;
        if !self.value.is_empty() {
            write!(f, ": {}", self.value)?;
        }
        match &self.place {
            Some(place) => write!(f, " ({place})"),
            None => Ok(()),
        }
    }
}

#[cfg(test)]
mod tests {
    use super::*;

    #[test]
    fn as_the_page_has_it() {
        let problem = Problem::refused(Refusal::VertexOutOfRange, "x1 = 8192").at(Place::line("scene.txt", 7));
        let says = "6: a vertex number is outside -8192..8191: x1 = 8192 (scene.txt, line 7)";
        assert_eq!(problem.to_string(), says);
        assert_eq!(problem.at(Place::file("other")).to_string(), says);
    }

    #[test]
    fn no_number_twice() {
        for (k, row) in OWN.iter().enumerate() {
            assert!(row.0 >= 100 && OWN[..k].iter().all(|other| other.0 < row.0 && other.1 != row.1));
        }
    }
}
