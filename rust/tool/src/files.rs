//! Files in and out.

use crate::problem::{self, Place, Problem};
use kit::{pixels, png};
use merikohin::Screen;
use std::fs;

pub fn read(file: &str) -> Result<Vec<u8>, Problem> {
    fs::read(file).map_err(|error| Problem::new(problem::UNREADABLE, error.to_string()).at(Place::file(file)))
}

pub fn read_text(file: &str) -> Result<String, Problem> {
    String::from_utf8(read(file)?)
        .map_err(|_| Problem::new(problem::UNREADABLE, "it is not text").at(Place::file(file)))
}

pub fn write(file: &str, bytes: &[u8]) -> Result<(), Problem> {
    fs::write(file, bytes).map_err(|error| Problem::new(problem::UNWRITABLE, error.to_string()).at(Place::file(file)))
}

/// A program's words as a file has them: big-endian, as RAM does.
pub fn words_of(file: &str, bytes: &[u8]) -> Result<Vec<u32>, Problem> {
    if bytes.len() % 4 != 0 {
        return Err(Problem::new(problem::HALF_A_WORD, format!("{} bytes", bytes.len())).at(Place::file(file)));
    }
    Ok(bytes.chunks(4).map(|word| u32::from_be_bytes([word[0], word[1], word[2], word[3]])).collect())
}

pub fn bytes_of(words: &[u32]) -> Vec<u8> {
    words.iter().flat_map(|word| word.to_be_bytes()).collect()
}

/// What an output is, by its file's suffix.
#[derive(Clone, Copy, Debug, PartialEq, Eq)]
pub enum Kind {
    Png,
    Ppm,
    Text,
    Ram,
}

/// An output asked for: judged before any work is done.
#[derive(Clone, Debug, PartialEq, Eq)]
pub struct Output {
    file: String,
    kind: Kind,
}

impl Output {
    pub fn new(file: String) -> Result<Output, Problem> {
        let kind = match suffix(&file) {
            "png" => Kind::Png,
            "ppm" => Kind::Ppm,
            "txt" => Kind::Text,
            "ram" => Kind::Ram,
            _ => return Err(Problem::new(problem::SUFFIX, ".png, .ppm, .txt or .ram is wanted").at(Place::file(&file))),
        };
        Ok(Output { file, kind })
    }

    /// Writes screens of one width, each below the one before, or the RAM whole.
    pub fn write(&self, ram: &[u8], screens: impl IntoIterator<Item = Screen>) -> Result<(), Problem> {
        if self.kind == Kind::Ram {
            return write(&self.file, ram);
        }
        let (mut width, mut height, mut colours) = (0, 0, Vec::new());
        for screen in screens {
            width = screen.width();
            height += screen.height();
            colours.extend(colours_of(ram, screen)?);
        }
        if height == 0 {
            return Err(Problem::new(problem::NO_SCREEN, "").at(Place::file(&self.file)));
        }
        let bytes = match self.kind {
            Kind::Png => png::encode(width, height, &pixels::rgb_rows(&colours)),
            Kind::Ppm => pixels::ppm(width, height, &colours),
            Kind::Text | Kind::Ram => pixels::text(width, &colours).into_bytes(),
        };
        write(&self.file, &bytes)
    }
}

pub fn suffix(file: &str) -> &str {
    file.rsplit_once('.').map_or("", |(_, suffix)| suffix)
}

/// A screen's colours, row by row.
fn colours_of(ram: &[u8], screen: Screen) -> Result<Vec<u16>, Problem> {
    let mut colours = Vec::new();
    for y in 0..screen.height() {
        let row = merikohin::row(ram, screen, y).map_err(|refusal| Problem::refused(refusal, format!("row {y}")))?;
        colours.extend(pixels::halves(row));
    }
    Ok(colours)
}
