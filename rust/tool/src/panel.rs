//! A panel of a recording: the waveform, drawn by one call of the engine, and the
//! ruler below it.

use crate::columns::{least_per_column, Columns};
use crate::files::Output;
use crate::places::{self, Where};
use crate::problem::{self, Place, Problem};
use crate::ruler::{self, colour, Pen};
use crate::sound::{self, Kept, Sound};
use kit::args::{number, Args};
use merikohin::{Refusal, Screen};

/// What the command line asks for beside the file.
pub struct Options {
    pub per_column: Option<i32>,
    pub offset: i32,
    pub from: u64,
    /// The waveform's columns and rows.
    pub size: (u32, u32),
    pub kept: Kept,
    pub wheres: Vec<Where>,
}

impl Default for Options {
    fn default() -> Options {
        Options { per_column: None, offset: 0, from: 0, size: (640, 120), kept: Kept::default(), wheres: Vec::new() }
    }
}

/// The names of its options.
pub const NAMES: [&str; 9] =
    ["-o", "--per-column", "--offset", "--channel", "--from", "--rate", "--size", "--where-column", "--where-sample"];

impl Options {
    /// Takes an option with its value, where it is one of these.
    pub fn take(&mut self, option: &str, args: &mut Args) -> Result<bool, String> {
        match option {
            "--per-column" => self.per_column = Some(args.number()?),
            "--offset" => self.offset = args.number()?,
            "--channel" => self.kept.channel = Some(args.number()?),
            "--from" => self.from = args.number()?,
            "--rate" => self.kept.rate = Some(rate(args.number()?)?),
            "--size" => self.size = size(&args.value()?)?,
            "--where-column" => self.wheres.push(Where::Column(args.number()?)),
            "--where-sample" => self.wheres.push(Where::Sample(args.number()?)),
            _ => return Ok(false),
        }
        Ok(true)
    }
}

fn size(text: &str) -> Result<(u32, u32), String> {
    let (width, height) = text.split_once('x').ok_or(format!("--size is WIDTHxHEIGHT, not {text}"))?;
    Ok((number(width)?, number(height)?))
}

fn rate(rate: u32) -> Result<u32, String> {
    if rate == 0 {
        return Err("--rate is 1 or more".into());
    }
    Ok(rate)
}

/// A file's samples, and how the panel shows them.
pub struct Panel {
    pub file: String,
    pub sound: Sound,
    pub channel: Option<u32>,
    pub columns: Columns,
    pub height: u32,
    /// Where the samples a column were not given: how many samples should be shown.
    pub wanted: Option<i64>,
}

/// Its two screens, one below the other, and what is drawn on them.
struct Picture {
    ram: Vec<u8>,
    screens: [Screen; 2],
}

impl Picture {
    /// In one RAM: the colours of both, then the depths of both. A size that no
    /// screen has makes an empty RAM, and the engine refuses it.
    fn new(size: (u32, u32), ruler_high: u32) -> Result<Picture, Problem> {
        let wave = Screen::new(0, 0, size.0, size.1);
        let (width, height) = (wave.width(), wave.height());
        let [wave_area, whole] = [height, height + ruler_high].map(|rows| 2 * width * rows);
        let screens =
            [(0, height), (wave_area, ruler_high)].map(|(start, rows)| Screen::new(start, whole + start, width, rows));
        let mut ram = vec![0; 2 * whole as usize];
        for (screen, ground) in screens.into_iter().zip([colour::GROUND, colour::RULER]) {
            merikohin::clear(&mut ram, screen, ground, 65535).map_err(|refusal| {
                let taken = "a width of 16 to 640 by 16 and a height of 1 to 480 are taken";
                Problem::refused(refusal, format!("--size {}x{}; {taken}", size.0, size.1))
            })?;
        }
        Ok(Picture { ram, screens })
    }

    fn pen(&mut self, k: usize) -> Pen<'_> {
        Pen { ram: &mut self.ram, screen: self.screens[k] }
    }

    /// Draws all of it, and answers how many pixels the waveform has.
    fn draw(&mut self, panel: &Panel) -> Result<u32, Problem> {
        let Columns { per_column, offset, recording, .. } = &panel.columns;
        let (n, d) = (*per_column as i32, *offset as i32);
        let samples = &panel.sound.samples[recording.start as usize..recording.end as usize];
        let pixels = merikohin::panel(&mut self.ram, self.screens[0], samples, n, d, colour::WAVE)
            .map_err(|refusal| Problem::refused(refusal, no_panel(refusal, samples.len(), n, d)))?;
        ruler::draw_behind(&mut self.pen(0), &panel.columns);
        ruler::draw(&mut self.pen(1), &panel.columns, panel.sound.rate);
        Ok(pixels)
    }
}

/// Which of the reasons of number 10 it is. The engine says that it is one of them.
fn no_panel(refusal: Refusal, count: usize, n: i32, d: i32) -> String {
    if refusal != Refusal::NoPanel {
        return String::new();
    }
    let reasons = [
        (count > merikohin::SAMPLES_MOST, format!("{count} samples")),
        (!(1..=merikohin::PER_COLUMN_MOST).contains(&n), format!("--per-column {n}")),
        (!(merikohin::OFFSET_LEAST..=merikohin::OFFSET_MOST).contains(&d), format!("--offset {d}")),
    ];
    let held: Vec<String> = reasons.into_iter().filter(|reason| reason.0).map(|reason| reason.1).collect();
    held.join(", ")
}

/// Whether each column that was asked for has samples, and each sample a column.
pub fn panel(file: &str, options: &Options, output: Option<Output>) -> Result<bool, Problem> {
    let sound = sound::read(file, options.kept)?;
    drawn(file, sound, options, output).map_err(|problem| problem.at(Place::file(file)))
}

fn drawn(file: &str, sound: Sound, options: &Options, output: Option<Output>) -> Result<bool, Problem> {
    let mut picture = Picture::new(options.size, ruler::height(sound.rate))?;
    let panel = laid_out(file, sound, options)?;
    let pixels = picture.draw(&panel)?;
    let answers: Result<Vec<_>, _> = options.wheres.iter().map(|place| places::find(&panel, *place)).collect();
    let answers = answers?;
    for line in places::summary(&panel) {
        println!("{line}");
    }
    println!("drawn: {pixels} pixels");
    for (line, _) in &answers {
        println!("{line}");
    }
    if let Some(output) = output {
        output.write(&picture.ram, picture.screens)?;
    }
    Ok(answers.iter().all(|answer| answer.1))
}

/// The recording begins at --from and has as many samples as the file has there
/// and the engine takes. Its size was taken already.
fn laid_out(file: &str, sound: Sound, options: &Options) -> Result<Panel, Problem> {
    let (len, width) = (sound.samples.len() as i64, options.size.0);
    let from = options.from.min(i64::MAX as u64) as i64;
    if from > 0 && from >= len {
        let why = format!("--from {}; it has {len} samples, counted from 0", options.from);
        return Err(Problem::new(problem::NO_SAMPLE, why));
    }
    let recording = from..len.min(from + merikohin::SAMPLES_MOST as i64);
    // A whole second where there is more.
    let wanted = sound.rate.map_or(len - from, |rate| (len - from).min(rate.into()));
    let per_column = options.per_column.unwrap_or_else(|| least_per_column(wanted, width));
    let (per_column, offset) = (per_column.into(), options.offset.into());
    Ok(Panel {
        file: file.into(),
        channel: options.kept.channel.filter(|_| sound.channels > 1),
        sound,
        columns: Columns { width: width.into(), per_column, offset, recording },
        height: options.size.1,
        wanted: Some(wanted).filter(|_| options.per_column.is_none()),
    })
}

#[cfg(test)]
mod tests {
    use super::*;

    #[test]
    fn which_reason_of_number_10() {
        let told = |count: usize, n: i32, d: i32| no_panel(Refusal::NoPanel, count, n, d);
        assert_eq!(told(40_960, 65, 0), "--per-column 65");
        assert_eq!(told(40_960, 64, 2_048), "--offset 2048");
        assert_eq!(told(0, 0, -2_049), "--per-column 0, --offset -2049");
        assert_eq!(told(40_961, 1, 0), "40961 samples");
    }

    #[test]
    fn sizes() {
        assert_eq!(size("640x120"), Ok((640, 120)));
        assert_eq!(size("640"), Err("--size is WIDTHxHEIGHT, not 640".into()));
        assert_eq!(size("640x"), Err("not a number: ".into()));
        assert_eq!(size("-16x4"), Err("the number does not fit: -16".into()));
    }

    /// The waveform's pixels are the engine's own: drawn behind it, the lines change none of them.
    #[test]
    fn behind_the_waveform() {
        let samples: Vec<i16> = (0..3_000).map(|k| (k * 7_919) as i16).collect();
        let sound = || Sound { samples: samples.clone(), rate: Some(8_000), channels: 1 };
        for (width, height) in [(16, 1), (160, 48), (640, 480)] {
            let options = Options { size: (width, height), offset: -100, ..Options::default() };
            let panel = laid_out("f", sound(), &options).unwrap();
            let mut picture = Picture::new(options.size, ruler::height(panel.sound.rate)).unwrap();
            let pixels = picture.draw(&panel).unwrap();
            let screen = Screen::new(0, 4 * width * height, width, height);
            let mut alone = vec![0; 8 * (width * height) as usize];
            let n = panel.columns.per_column as i32;
            assert_eq!(merikohin::panel(&mut alone, screen, &samples, n, -100, colour::WAVE), Ok(pixels));
            for y in 0..height {
                let [row, wanted] = [(&picture.ram, picture.screens[0]), (&alone, screen)]
                    .map(|(ram, screen)| merikohin::row(ram, screen, y).unwrap());
                let is_wave =
                    |row: &[u8]| row.chunks(2).map(|half| half == colour::WAVE.to_be_bytes()).collect::<Vec<_>>();
                assert_eq!(is_wave(row), is_wave(wanted), "row {y} of {width} by {height}");
            }
        }
    }

    /// A second at any rate on a screen of any width: all of it, or as much as 64 samples a column show.
    #[test]
    fn a_second_on_any_screen() {
        for (rate, width) in [8_000, 44_100, 48_000].into_iter().flat_map(|rate| (1..=40).map(move |k| (rate, 16 * k)))
        {
            let sound = Sound { samples: vec![0; 60_000], rate: Some(rate), channels: 1 };
            let options = Options { size: (width, 1), ..Options::default() };
            let panel = laid_out("f", sound, &options).unwrap();
            let shown = panel.columns.shown();
            let most = i64::from(rate).min(64 * i64::from(width));
            assert!(shown.start == 0 && shown.end >= most && shown.end < most + i64::from(width), "{rate}, {width}");
        }
    }
}
