//! A case: a RAM and what it holds at first, a screen in it, a recording, and how
//! it is shown. Every case has a text form that `--case` reads back.

use crate::case::{numbers, Fill};
use crate::groups::tight;
use kit::rng::Rng;
use merikohin::Screen;
use std::fmt;

/// The samples of a recording.
#[derive(Clone, Debug, PartialEq, Eq)]
pub enum Recording {
    /// One by one.
    List(Vec<i16>),
    /// One value, so many times.
    Same(i16, usize),
    /// Two values in turn, so many together.
    InTurn(i16, i16, usize),
    /// So many that follow from a seed; fewer of the same seed are its first.
    Random(u64, usize),
}

impl Recording {
    pub fn count(&self) -> usize {
        match self {
            Recording::List(samples) => samples.len(),
            Recording::Same(_, count) | Recording::InTurn(_, _, count) | Recording::Random(_, count) => *count,
        }
    }

    pub fn samples(&self) -> Vec<i16> {
        match *self {
            Recording::List(ref samples) => samples.clone(),
            Recording::Same(value, count) => vec![value; count],
            Recording::InTurn(first, second, count) => [first, second].into_iter().cycle().take(count).collect(),
            Recording::Random(seed, count) => {
                let mut rng = Rng::new(seed);
                let (shape, mut last) = (rng.next() % 6, 0);
                let mut next = || {
                    last = sample(&mut rng, shape, last);
                    last
                };
                (0..count).map(|_| next()).collect()
            }
        }
    }
}

/// The next sample of a recording of one shape: noise, a hum, the ends alone,
/// clicks, above the middle alone, or a wave.
fn sample(rng: &mut Rng, shape: u64, last: i16) -> i16 {
    let any = rng.next();
    match shape {
        0 => any as i16,
        1 => (any % 7) as i16 - 3,
        2 => [i16::MIN, i16::MAX, 0, -1, i16::MIN + 1, i16::MAX - 1][(any % 6) as usize],
        3 if any.is_multiple_of(50) => (any >> 32) as i16,
        3 => 0,
        4 => (any % 32768) as i16,
        _ => last.saturating_add((any % 4001) as i16 - 2000),
    }
}

#[derive(Clone, Debug, PartialEq, Eq)]
pub struct Case {
    /// RAM length in bytes.
    pub ram: usize,
    /// How far RAM and samples are moved from their usual addresses.
    pub lead: usize,
    pub fill: Fill,
    pub screen: Screen,
    pub recording: Recording,
    /// How many of its first samples are left out; all, if it has fewer.
    pub without: usize,
    pub per_column: i32,
    pub offset: i32,
    pub colour: u16,
}

impl Case {
    /// On a screen of this size that fills its RAM, all bytes 255.
    pub fn new(size: u32, recording: Recording, per_column: i32, offset: i32) -> Case {
        let (screen, ram) = tight(size);
        let fill = Fill::Byte(255);
        Case { ram, lead: 0, fill, screen, recording, without: 0, per_column, offset, colour: 0x1234 }
    }

    pub fn width(&self) -> u32 {
        self.screen.size_number / 512 * 16
    }

    pub fn height(&self) -> u32 {
        self.screen.size_number % 512
    }

    /// How many samples are lent.
    pub fn count(&self) -> usize {
        self.recording.count().saturating_sub(self.without)
    }

    pub fn samples(&self) -> Vec<i16> {
        let mut samples = self.recording.samples();
        samples.drain(..self.without.min(samples.len()));
        samples
    }
}

/// For accepted cases: what can be said of them without going through the columns.
impl Case {
    /// The column that a sample is in, if it is on the screen.
    pub fn column_of(&self, number: usize) -> Option<u32> {
        let column = (number as i64 - i64::from(self.offset)).div_euclid(i64::from(self.per_column));
        u32::try_from(column).ok().filter(|&column| column < self.width())
    }

    /// How many columns have samples. Of one after the other the column is the
    /// same or a later one.
    pub fn columns_with_samples(&self) -> u32 {
        let mut columns: Vec<u32> = (0..self.count()).filter_map(|number| self.column_of(number)).collect();
        columns.dedup();
        columns.len() as u32
    }

    /// The RAM at first, and then with these pixels drawn. (Asked of sound screens.)
    pub fn ram_with(&self, pixels: &[(u32, u32)]) -> Vec<u8> {
        let mut ram = vec![0; self.ram];
        self.fill.apply(&mut ram);
        for &(x, y) in pixels {
            let place = 2 * (y * self.width() + x);
            let mut put = |start: u32, bytes: [u8; 2]| ram[(start + place) as usize..][..2].copy_from_slice(&bytes);
            put(self.screen.colour_start, self.colour.to_be_bytes());
            put(self.screen.depth_start, [0, 0]);
        }
        ram
    }
}

// ---------------------------------------------------------------------------
// Text form.
// ---------------------------------------------------------------------------

impl fmt::Display for Recording {
    fn fmt(&self, f: &mut fmt::Formatter<'_>) -> fmt::Result {
        match self {
            Recording::List(samples) => {
                let words: Vec<String> = samples.iter().map(i16::to_string).collect();
                write!(f, "list:{}", words.join(","))
            }
            Recording::Same(value, count) => write!(f, "same:{value}:{count}"),
            Recording::InTurn(first, second, count) => write!(f, "turn:{first}:{second}:{count}"),
            Recording::Random(seed, count) => write!(f, "random:{seed}:{count}"),
        }
    }
}

impl std::str::FromStr for Recording {
    type Err = String;

    fn from_str(text: &str) -> Result<Recording, String> {
        let parts: Vec<&str> = text.split(':').collect();
        match parts[..] {
            ["list", ""] => Ok(Recording::List(Vec::new())),
            ["list", list] => Ok(Recording::List(numbers(list, list.split(',').count())?)),
            ["same", value, count] => Ok(Recording::Same(numbers(value, 1)?[0], numbers(count, 1)?[0])),
            ["turn", first, second, count] => {
                Ok(Recording::InTurn(numbers(first, 1)?[0], numbers(second, 1)?[0], numbers(count, 1)?[0]))
            }
            ["random", seed, count] => Ok(Recording::Random(numbers(seed, 1)?[0], numbers(count, 1)?[0])),
            _ => Err(format!("samples are list:N,.. same:N:COUNT turn:N:N:COUNT or random:N:COUNT: {text}")),
        }
    }
}

impl fmt::Display for Case {
    fn fmt(&self, f: &mut fmt::Formatter<'_>) -> fmt::Result {
        write!(f, "panel={},{},{} ram={}", self.per_column, self.offset, self.colour, self.ram)?;
        if self.lead != 0 {
            write!(f, " lead={}", self.lead)?;
        }
        let Screen { colour_start, depth_start, size_number } = self.screen;
        write!(f, " fill={} screen={colour_start},{depth_start},{size_number} samples={}", self.fill, self.recording)?;
        if self.without != 0 {
            write!(f, " without={}", self.without)?;
        }
        Ok(())
    }
}

impl std::str::FromStr for Case {
    type Err = String;

    fn from_str(text: &str) -> Result<Case, String> {
        let mut case = Case::new(513, Recording::List(Vec::new()), 1, 0);
        for word in text.split_whitespace() {
            match word.split_once('=').ok_or(format!("name=value wanted: {word}"))? {
                ("panel", value) => {
                    let n = numbers::<i64>(value, 3)?;
                    let fits = |k: usize| i32::try_from(n[k]).map_err(|_| format!("does not fit: {word}"));
                    (case.per_column, case.offset) = (fits(0)?, fits(1)?);
                    case.colour = u16::try_from(n[2]).map_err(|_| format!("does not fit: {word}"))?;
                }
                ("ram", value) => case.ram = numbers(value, 1)?[0],
                ("lead", value) => case.lead = numbers(value, 1)?[0],
                ("fill", value) => case.fill = value.parse()?,
                ("screen", value) => {
                    let n = numbers::<u32>(value, 3)?;
                    case.screen = Screen { colour_start: n[0], depth_start: n[1], size_number: n[2] };
                }
                ("samples", value) => case.recording = value.parse()?,
                ("without", value) => case.without = numbers(value, 1)?[0],
                _ => return Err(format!("unknown: {word}")),
            }
        }
        Ok(case)
    }
}

#[cfg(test)]
mod tests {
    use super::*;

    /// What a mismatch prints is read back as the same case.
    #[test]
    fn there_and_back() {
        let lists = [Vec::new(), vec![5, -32768, 32767]].map(Recording::List);
        let others = [Recording::Same(-1, 40_961), Recording::InTurn(3, -3, 5), Recording::Random(7, 12)];
        for recording in lists.into_iter().chain(others) {
            let plain = Case::new(516, recording, i32::MIN, i32::MAX);
            let moved = Case { lead: 3, without: 2, fill: Fill::Random(9), colour: 65535, ..plain.clone() };
            for case in [plain, moved] {
                assert_eq!(case.to_string().parse(), Ok(case));
            }
        }
    }

    /// Fewer of the same seed are its first; and what is left out are its first.
    #[test]
    fn fewer_and_without() {
        let case = Case::new(516, Recording::Random(3, 50), 1, 0);
        assert_eq!(Recording::Random(3, 20).samples(), case.samples()[..20]);
        assert_eq!(Case { without: 20, ..case.clone() }.samples(), case.samples()[20..]);
        assert_eq!(Case { without: 51, ..case }.count(), 0);
    }
}
