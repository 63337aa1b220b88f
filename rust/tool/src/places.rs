//! What a panel shows, in words: which samples, at which times, in which columns
//! and rows.

use crate::columns::row;
use crate::panel::Panel;
use crate::problem::{self, Problem};
use std::ops::Range;

/// A place that was asked for.
#[derive(Clone, Copy, Debug, PartialEq, Eq)]
pub enum Where {
    Column(u64),
    /// Numbered as in the file.
    Sample(u64),
}

/// Milliseconds to three places, rounded; nothing where the rate is not known.
fn time(samples: i64, rate: Option<u32>) -> Option<String> {
    let rate = i128::from(rate?);
    let micro = (i128::from(samples) * 1_000_000 + rate / 2) / rate;
    Some(format!("{}.{:03}", micro / 1000, micro % 1000))
}

/// A number of things, with their name in the singular.
fn counted(count: i64, name: &str) -> String {
    format!("{count} {name}{}", if count == 1 { "" } else { "s" })
}

/// Samples from the first to the last, with their times.
fn told(samples: &Range<i64>, rate: Option<u32>) -> String {
    let (first, last) = (samples.start, samples.end - 1);
    let times = time(first, rate).zip(time(last, rate));
    match times {
        _ if samples.is_empty() => "no samples".into(),
        Some((at, _)) if first == last => format!("sample {first}, {at} ms"),
        Some((from, to)) => format!("samples {first} to {last}, {from} to {to} ms"),
        None if first == last => format!("sample {first}"),
        None => format!("samples {first} to {last}"),
    }
}

/// What the file has and what the panel shows of it, a line each.
pub fn summary(panel: &Panel) -> Vec<String> {
    let columns = &panel.columns;
    let (rate, len) = (panel.sound.rate, panel.sound.samples.len() as i64);
    let channel = panel.channel.map_or(String::new(), |c| format!("channel {c} of {}, ", panel.sound.channels));
    let length = match rate.zip(time(len, rate)) {
        Some((rate, time)) => format!(", {rate} a second, {time} ms"),
        None => "; times are told where --rate is given".into(),
    };
    let each = time(columns.per_column, rate).map_or(String::new(), |time| format!(" ({time} ms)"));
    let (width, per_column) = (counted(columns.width, "column"), counted(columns.per_column, "sample"));
    let shown = columns.shown();
    let mut lines = vec![
        format!("{}: {channel}{}{length}", panel.file, counted(len, "sample")),
        format!("panel: {width} of {per_column}{each}, offset {}: {}", columns.offset, told(&shown, rate)),
    ];
    lines.extend(beside(panel, &shown));
    lines
}

/// What the file has on both sides of what is shown, and how to see it.
fn beside(panel: &Panel, shown: &Range<i64>) -> Vec<String> {
    let columns = &panel.columns;
    let (left, right) = (shown.start, panel.sound.samples.len() as i64 - shown.end);
    let mut lines = Vec::new();
    if left > 0 {
        lines.push(format!("left of it: {}", counted(left, "sample")));
    }
    if right > 0 {
        // From there on the first column has the next sample, or the recording begins with it.
        let from = shown.end - columns.offset.max(0);
        let how = if shown.is_empty() { String::new() } else { format!("; --from {from} goes on with them") };
        lines.push(format!("right of it: {}{how}", counted(right, "sample")));
    }
    let most = columns.width * columns.per_column;
    if let Some(wanted) = panel.wanted.filter(|wanted| *wanted > most) {
        let room = format!("{} columns of {}", columns.width, columns.per_column);
        lines.push(format!("{wanted} samples do not fit: {room}, the most, show {most}"));
    }
    lines
}

/// Tells of a place, and whether the answer is one: samples for a column, a column for a sample.
pub fn find(panel: &Panel, place: Where) -> Result<(String, bool), Problem> {
    match place {
        Where::Column(column) if column < panel.columns.width as u64 => Ok(of_column(panel, column as i64)),
        Where::Column(column) => {
            let has = format!("columns 0 to {}", panel.columns.width - 1);
            Err(Problem::new(problem::NO_COLUMN, format!("--where-column {column}; it has {has}")))
        }
        Where::Sample(sample) if sample < panel.sound.samples.len() as u64 => Ok(of_sample(panel, sample as i64)),
        Where::Sample(sample) => {
            let has = format!("{} samples, counted from 0", panel.sound.samples.len());
            Err(Problem::new(problem::NO_SAMPLE, format!("--where-sample {sample}; it has {has}")))
        }
    }
}

/// The samples of a column, and the two whose rows the bar reaches.
fn of_column(panel: &Panel, column: i64) -> (String, bool) {
    let (shown, places) = (panel.columns.samples(column), panel.columns.places(column));
    let value = |sample: &i64| panel.sound.samples[*sample as usize];
    // Of equal ones the first.
    let largest = shown.clone().rev().max_by_key(value);
    let smallest = shown.clone().min_by_key(value);
    let (largest, smallest) = match largest.zip(smallest) {
        Some(both) => both,
        None => {
            let [places, has] = [&places, &panel.columns.recording].map(|samples| told(samples, None));
            return (format!("column {column}: no samples; it is for {places}, and the recording has {has}"), false);
        }
    };
    let end = |sample: i64| {
        let value = value(&sample);
        format!("{value} (sample {sample}) in row {}", row(value, panel.height))
    };
    let ends = format!("largest {}, smallest {}", end(largest), end(smallest));
    (format!("column {column}: {}: {ends}", told(&shown, panel.sound.rate)), true)
}

/// A sample's column and row, or how far from the panel it is.
fn of_sample(panel: &Panel, sample: i64) -> (String, bool) {
    let columns = &panel.columns;
    let value = panel.sound.samples[sample as usize];
    let at = time(sample, panel.sound.rate).map_or(String::new(), |time| format!("{time} ms, "));
    let (column, recording) = (columns.column(sample), &columns.recording);
    let far = |columns: i64, samples: i64| format!("{}, {}", counted(columns, "column"), counted(samples, "sample"));
    let (left, right) = (columns.places(0).start, columns.places(columns.width).start);
    let stands = if column < 0 {
        format!("left of the panel: {}", far(-column, left - sample))
    } else if column >= columns.width {
        format!("right of the panel: {}", far(column - columns.width + 1, sample - right + 1))
    } else if sample < recording.start {
        format!("in no column: the recording begins at --from {}", recording.start)
    } else if sample >= recording.end {
        let count = recording.end - recording.start;
        format!("in no column: the recording ends after {count} samples; a greater --from shows it")
    } else {
        format!("column {column}, row {}", row(value, panel.height))
    };
    (format!("sample {sample}: {at}value {value}: {stands}"), columns.shown().contains(&sample))
}

#[cfg(test)]
mod tests {
    use super::*;
    use crate::columns::Columns;
    use crate::sound::Sound;

    /// 1,000 samples, sample k of value 10 k, from sample 100 on, on 16 columns of 10 samples in 100 rows.
    fn panel(offset: i64, rate: Option<u32>) -> Panel {
        let samples = (0..1000).map(|k| 10 * k).collect();
        Panel {
            file: "f.wav".into(),
            sound: Sound { samples, rate, channels: 1 },
            channel: None,
            columns: Columns { width: 16, per_column: 10, offset, recording: 100..1000 },
            height: 100,
            wanted: None,
        }
    }

    fn told(offset: i64, place: Where) -> (String, bool) {
        find(&panel(offset, Some(8_000)), place).unwrap()
    }

    #[test]
    fn what_is_shown() {
        let wanted = [
            "f.wav: 1000 samples, 8000 a second, 125.000 ms",
            "panel: 16 columns of 10 samples (1.250 ms), offset 5: samples 105 to 264, 13.125 to 33.000 ms",
            "left of it: 105 samples",
            "right of it: 735 samples; --from 260 goes on with them",
        ];
        assert_eq!(summary(&panel(5, Some(8_000))), wanted);
        let mut other = panel(-5, None);
        other.channel = Some(2);
        other.sound.channels = 2;
        other.wanted = Some(900);
        let wanted = [
            "f.wav: channel 2 of 2, 1000 samples; times are told where --rate is given",
            "panel: 16 columns of 10 samples, offset -5: samples 100 to 254",
            "left of it: 100 samples",
            "right of it: 745 samples; --from 255 goes on with them",
            "900 samples do not fit: 16 columns of 10, the most, show 160",
        ];
        assert_eq!(summary(&other), wanted);
        let lines = summary(&panel(2_000, None));
        assert_eq!(
            lines[1..],
            ["panel: 16 columns of 10 samples, offset 2000: no samples", "left of it: 1000 samples"]
        );
        let lines = summary(&panel(-2_000, None));
        assert_eq!(lines[2..], ["left of it: 100 samples", "right of it: 900 samples"]);
    }

    #[test]
    fn columns() {
        let ends = "largest 1090 (sample 109) in row 48, smallest 1000 (sample 100) in row 48";
        let whole = format!("column 0: samples 100 to 109, 12.500 to 13.625 ms: {ends}");
        assert_eq!(told(0, Where::Column(0)), (whole, true));
        let part = "column 0: sample 100, 12.500 ms: largest 1000 (sample 100) in row 48, \
                    smallest 1000 (sample 100) in row 48";
        assert_eq!(told(-9, Where::Column(0)), (part.into(), true));
        let none = "column 0: no samples; it is for samples 80 to 89, and the recording has samples 100 to 999";
        assert_eq!(told(-20, Where::Column(0)), (none.into(), false));
        let problem = find(&panel(0, None), Where::Column(16)).unwrap_err().to_string();
        assert_eq!(problem, "122: the panel has no such column: --where-column 16; it has columns 0 to 15");
    }

    #[test]
    fn samples() {
        for (offset, sample, wanted, shown) in [
            (0, 109, "sample 109: 13.625 ms, value 1090: column 0, row 48", true),
            (0, 110, "sample 110: 13.750 ms, value 1100: column 1, row 48", true),
            (5, 104, "sample 104: 13.000 ms, value 1040: left of the panel: 1 column, 1 sample", false),
            (5, 264, "sample 264: 33.000 ms, value 2640: column 15, row 45", true),
            (5, 275, "sample 275: 34.375 ms, value 2750: right of the panel: 2 columns, 11 samples", false),
            (-20, 99, "sample 99: 12.375 ms, value 990: in no column: the recording begins at --from 100", false),
        ] {
            assert_eq!(told(offset, Where::Sample(sample)), (wanted.into(), shown));
        }
        let mut short = panel(0, None);
        short.columns.recording = 100..200;
        let wanted =
            "sample 200: value 2000: in no column: the recording ends after 100 samples; a greater --from shows it";
        assert_eq!(find(&short, Where::Sample(200)), Ok((wanted.into(), false)));
        let problem = find(&short, Where::Sample(1000)).unwrap_err().to_string();
        let has = "--where-sample 1000; it has 1000 samples, counted from 0";
        assert_eq!(problem, format!("123: the file has no such sample: {has}"));
    }
}
