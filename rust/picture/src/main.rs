//! Draws a picture with the engine and writes it as a PNG file to standard
//! output: the review desk, or enlarged one shared edge, or half a pixel. Or
//! writes the recording that the command's panel shows.
//!
//!     target/rust/release/picture > docs/picture.png
//!     target/rust/release/picture --edge > docs/edge.png
//!     target/rust/release/picture --half-pixel > docs/changes/M-100.png
//!     target/rust/release/picture --snick > examples/sounds/snick.wav

mod camera;
mod canvas;
mod desk;
mod edge;
mod grid;
mod half_pixel;
mod pitch;
mod snick;
mod sound;
mod strip;
mod text;

use canvas::Canvas;
use kit::args::{Arg, Args};
use kit::{pixels, png};
use std::io::Write;
use std::process::ExitCode;

fn main() -> ExitCode {
    match Args::from_env().and_then(|args| file(&args.collect::<Vec<_>>())) {
        Ok(file) => {
            std::io::stdout().write_all(&file).expect("standard output takes the file");
            ExitCode::SUCCESS
        }
        Err(problem) => {
            eprintln!("picture: {problem}; it is used as picture [--edge | --half-pixel] > FILE.png");
            eprintln!("or as picture --snick > FILE.wav");
            ExitCode::from(2)
        }
    }
}

/// The file that the command line asks for.
fn file(words: &[Arg]) -> Result<Vec<u8>, String> {
    if matches!(words, [Arg::Option(word)] if word == "--snick") {
        return Ok(snick::file());
    }
    let canvas = wanted(words)?;
    let (width, height) = canvas.size();
    Ok(png::encode(width, height, &pixels::rgb_rows(&canvas.colours())))
}

/// The picture that the command line asks for.
fn wanted(words: &[Arg]) -> Result<Canvas, String> {
    match words {
        [] => Ok(desk::draw()),
        [Arg::Option(word)] if word == "--edge" => Ok(edge::draw()),
        [Arg::Option(word)] if word == "--half-pixel" => Ok(half_pixel::draw()),
        _ => Err("this command line is not understood".into()),
    }
}

#[cfg(test)]
mod tests {
    use super::*;

    fn drawn(words: &[&str]) -> Canvas {
        wanted(&read(words)).unwrap()
    }

    fn read(words: &[&str]) -> Vec<Arg> {
        Args::new(words.iter().copied()).collect()
    }

    /// The files in docs/, read back by the reader that shares nothing with the
    /// writer, are what the engine draws.
    #[test]
    fn the_files_have_the_pictures() {
        for (file, words) in [("picture", &[][..]), ("edge", &["--edge"]), ("changes/M-100", &["--half-pixel"])] {
            let canvas = drawn(words);
            let (width, height) = canvas.size();
            let bytes = std::fs::read(format!("../../docs/{file}.png")).unwrap();
            assert!(png::decode(&bytes) == Ok((width, height, pixels::rgb_rows(&canvas.colours()))), "{file}");
        }
    }

    /// The README says how many triangles its two are.
    #[test]
    fn the_readme_counts_them() {
        let readme = std::fs::read_to_string("../../README.md").unwrap();
        for words in [&[][..], &["--edge"]] {
            let count = drawn(words).triangles;
            let said = format!("{},{:03} triangles", count / 1000, count % 1000);
            assert!(readme.contains(&said), "{said}");
        }
    }

    #[test]
    fn other_words_are_refused() {
        for words in [&["--edges"][..], &["edge"], &["--edge", "--edge"], &["--snick", "--half-pixel"]] {
            assert!(file(&read(words)).is_err());
        }
    }
}
