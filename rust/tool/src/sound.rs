//! Recordings from files: WAV of 16-bit PCM samples, or the samples alone.

use crate::files;
use crate::problem::{self, Place, Problem};

/// One channel of a file.
#[derive(Debug, PartialEq, Eq)]
pub struct Sound {
    pub samples: Vec<i16>,
    /// Samples a second, where that is known.
    pub rate: Option<u32>,
    pub channels: u32,
}

/// What the command line says of the file.
#[derive(Clone, Copy, Debug, Default)]
pub struct Kept {
    /// The channel to take, counted from 1.
    pub channel: Option<u32>,
    /// Samples a second, where the file does not say.
    pub rate: Option<u32>,
}

/// What a WAV file is here, for every sentence that says why one is not taken.
const TAKEN: &str = "a WAV file of 16-bit PCM samples is taken";

const BYTES: usize = 2;

/// The bytes before the first chunk, and of a chunk's name and length.
const RIFF_HEADER: usize = 12;
const CHUNK_HEADER: usize = 8;

/// Reads a file by its suffix.
pub fn read(file: &str, kept: Kept) -> Result<Sound, Problem> {
    let read = match files::suffix(file).to_ascii_lowercase().as_str() {
        "wav" => files::read(file).and_then(|bytes| wav(&bytes, kept)),
        "raw" => files::read(file).and_then(|bytes| raw(&bytes, kept)),
        _ => Err(Problem::new(problem::SUFFIX, ".wav or .raw is wanted")),
    };
    read.map_err(|problem| problem.at(Place::file(file)))
}

fn not_taken(why: impl Into<String>) -> Problem {
    Problem::new(problem::SOUND, why)
}

/// Signed samples of 16 bits, the lower byte first, of one channel.
fn raw(bytes: &[u8], kept: Kept) -> Result<Sound, Problem> {
    if bytes.len() % BYTES != 0 {
        let why = format!("it has {} bytes, not a whole number of samples", bytes.len());
        return Err(not_taken(format!("{why}; signed 16-bit little-endian samples of one channel are taken")));
    }
    let channel = chosen(kept.channel, 1)?;
    Ok(Sound { samples: samples(bytes, channel, 1), rate: kept.rate, channels: 1 })
}

/// What a file's fmt chunk says.
struct Format {
    channels: u32,
    rate: u32,
}

fn wav(bytes: &[u8], kept: Kept) -> Result<Sound, Problem> {
    if bytes.len() < RIFF_HEADER {
        let why = format!("it is cut short: {} bytes, and its header alone has {RIFF_HEADER}", bytes.len());
        return Err(not_taken(format!("{why}; {TAKEN}")));
    }
    if &bytes[..4] != b"RIFF" || &bytes[8..12] != b"WAVE" {
        return Err(not_taken(format!("it does not begin as a WAV file, with RIFF and WAVE; {TAKEN}")));
    }
    let mut format = None;
    let mut rest = &bytes[RIFF_HEADER..];
    while !rest.is_empty() {
        let Chunk { name, body, after } = chunk(rest)?;
        match (name, &format) {
            (b"fmt ", _) => format = Some(format_of(body)?),
            (b"data", Some(_)) if body.is_empty() && !are_chunks(after) => {
                let why = format!("its data is of 0 bytes, and {} follow that are no chunk", after.len());
                return Err(not_taken(format!("{why}, as where a recorder did not end its file; {TAKEN}")));
            }
            (b"data", Some(format)) => return data(body, format, kept),
            (b"data", None) => return Err(not_taken(format!("its data comes before its fmt chunk; {TAKEN}"))),
            _ => {}
        }
        rest = after;
    }
    let missing = if format.is_none() { "fmt chunk and no data" } else { "data" };
    Err(not_taken(format!("it has no {missing}, or is cut short before it; {TAKEN}")))
}

/// A chunk, and what comes after it.
struct Chunk<'a> {
    name: &'a [u8],
    body: &'a [u8],
    after: &'a [u8],
}

fn chunk(rest: &[u8]) -> Result<Chunk<'_>, Problem> {
    if rest.len() < CHUNK_HEADER {
        let why = format!("it is cut short: {} bytes of a chunk's header of {CHUNK_HEADER}", rest.len());
        return Err(not_taken(format!("{why}; {TAKEN}")));
    }
    let (name, there) = (&rest[..4], &rest[CHUNK_HEADER..]);
    let length = word(rest, 4) as usize;
    if length > there.len() {
        let name = name.escape_ascii().to_string();
        let why =
            format!("it is cut short: its {} has {length} bytes, of which {} are there", name.trim(), there.len());
        return Err(not_taken(format!("{why}; {TAKEN}")));
    }
    // A chunk of odd length has a byte more, which the last may lack.
    let after = (length + length % 2).min(there.len());
    Ok(Chunk { name, body: &there[..length], after: &there[after..] })
}

/// Whether bytes are whole chunks with names that can be read.
fn are_chunks(mut rest: &[u8]) -> bool {
    while !rest.is_empty() {
        match chunk(rest) {
            Ok(chunk) if chunk.name.iter().all(|byte| (b' '..=b'~').contains(byte)) => rest = chunk.after,
            _ => return false,
        }
    }
    true
}

fn half(bytes: &[u8], at: usize) -> u32 {
    u16::from_le_bytes([bytes[at], bytes[at + 1]]).into()
}

fn word(bytes: &[u8], at: usize) -> u32 {
    half(bytes, at) | half(bytes, at + 2) << 16
}

const PCM: u32 = 1;
const FLOAT: u32 = 3;
const EXTENSIBLE: u32 = 0xfffe;

/// The format whose number stands in the longer chunk of an extensible file,
/// before bytes that are the same in all.
fn sub_format(body: &[u8]) -> Option<u32> {
    const TAIL: [u8; 14] = [0, 0, 0, 0, 0x10, 0, 0x80, 0, 0, 0xaa, 0, 0x38, 0x9b, 0x71];
    (body.len() >= 40 && body[26..40] == TAIL).then(|| half(body, 24))
}

fn format_of(body: &[u8]) -> Result<Format, Problem> {
    if body.len() < 16 {
        return Err(not_taken(format!("its fmt chunk has {} bytes, fewer than 16; {TAKEN}", body.len())));
    }
    let [number, channels, frame, bits] = [0, 2, 12, 14].map(|at| half(body, at));
    let kind = if number == EXTENSIBLE { sub_format(body).unwrap_or(number) } else { number };
    let why = match (kind, bits) {
        (PCM, 16) if channels == 0 => "it has no channel".into(),
        (PCM, 16) if frame != channels * BYTES as u32 => {
            format!(
                "its frames have {frame} bytes, and {channels} channels of 16 bits have {}",
                channels * BYTES as u32
            )
        }
        (PCM, 16) => return Ok(Format { channels, rate: word(body, 4) }),
        (PCM, _) => format!("its samples have {bits} bits"),
        (FLOAT, _) => format!("its samples are floating-point numbers of {bits} bits"),
        _ => format!("its samples are coded in another way, format {kind}{}", known(kind)),
    };
    Err(not_taken(format!("{why}; {TAKEN}")))
}

/// The names of formats that users meet.
fn known(kind: u32) -> &'static str {
    match kind {
        2 => " (ADPCM)",
        6 => " (A-law)",
        7 => " (mu-law)",
        0x11 => " (IMA ADPCM)",
        0x55 => " (MP3)",
        _ => "",
    }
}

fn data(body: &[u8], format: &Format, kept: Kept) -> Result<Sound, Problem> {
    let channels = format.channels;
    let frame = channels as usize * BYTES;
    if body.len() % frame != 0 {
        let why = format!("its data has {} bytes, not a whole number of frames of {frame}", body.len());
        return Err(not_taken(format!("{why}; {TAKEN}")));
    }
    let channel = chosen(kept.channel, channels)?;
    let rate = match (format.rate, kept.rate) {
        (0, rate) => rate,
        (rate, None) => Some(rate),
        (rate, Some(_)) => {
            let why = format!("--rate is for files that do not say theirs; this one says {rate}");
            return Err(Problem::new(problem::USAGE, why));
        }
    };
    Ok(Sound { samples: samples(body, channel, channels), rate, channels })
}

/// The channel to take, counted from 0.
fn chosen(channel: Option<u32>, channels: u32) -> Result<usize, Problem> {
    match channel {
        Some(channel) if (1..=channels).contains(&channel) => Ok(channel as usize - 1),
        Some(channel) => {
            let has = if channels == 1 { "channel 1 alone".into() } else { format!("channels 1 to {channels}") };
            Err(Problem::new(problem::NO_CHANNEL, format!("--channel {channel}; it has {has}")))
        }
        None if channels == 1 => Ok(0),
        None => {
            let between = if channels == 2 { "or" } else { "to" };
            let how = format!("--channel 1 {between} --channel {channels} takes one of them");
            Err(not_taken(format!("it has {channels} channels, and a panel shows one; {how}")))
        }
    }
}

/// One channel's samples of whole frames.
fn samples(bytes: &[u8], channel: usize, channels: u32) -> Vec<i16> {
    bytes.chunks_exact(channels as usize * BYTES).map(|frame| half(frame, channel * BYTES) as i16).collect()
}

#[cfg(test)]
mod tests {
    use super::*;

    fn chunk_of(name: &str, body: &[u8]) -> Vec<u8> {
        let mut bytes = [name.as_bytes(), &(body.len() as u32).to_le_bytes()[..], body].concat();
        bytes.resize(bytes.len() + body.len() % 2, 0);
        bytes
    }

    fn fmt(kind: u16, channels: u16, bits: u16) -> Vec<u8> {
        let frame = channels * (bits / 8);
        let rate = 48_000u32.to_le_bytes();
        let halves = |numbers: [u16; 2]| numbers.map(u16::to_le_bytes).concat();
        chunk_of("fmt ", &[halves([kind, channels]), rate.into(), vec![0; 4], halves([frame, bits])].concat())
    }

    fn riff(chunks: &[Vec<u8>]) -> Vec<u8> {
        [b"RIFF\0\0\0\0WAVE".to_vec(), chunks.concat()].concat()
    }

    fn le(samples: &[i16]) -> Vec<u8> {
        samples.iter().flat_map(|sample| sample.to_le_bytes()).collect()
    }

    fn whole(channels: u16, samples: &[i16]) -> Vec<u8> {
        riff(&[fmt(1, channels, 16), chunk_of("data", &le(samples))])
    }

    fn extensible(kind: u8) -> Vec<u8> {
        let mut body = fmt(0xfffe, 1, 16)[8..].to_vec();
        body.extend([22, 0, 16, 0, 4, 0, 0, 0, kind, 0]);
        body.extend([0, 0, 0, 0, 0x10, 0, 0x80, 0, 0, 0xaa, 0, 0x38, 0x9b, 0x71]);
        riff(&[chunk_of("fmt ", &body), chunk_of("data", &[1, 0])])
    }

    fn wav_of(bytes: &[u8], channel: Option<u32>) -> Result<Sound, Problem> {
        wav(bytes, Kept { channel, rate: None })
    }

    #[test]
    fn samples_of_a_channel() {
        let wanted = |samples: &[i16], channels: u32| Sound { samples: samples.into(), rate: Some(48_000), channels };
        assert_eq!(wav_of(&whole(1, &[1, -2, 32767, -32768]), None), Ok(wanted(&[1, -2, 32767, -32768], 1)));
        assert_eq!(wav_of(&whole(1, &[]), Some(1)), Ok(wanted(&[], 1)));
        assert_eq!(wav_of(&whole(2, &[1, 2, 3, 4]), Some(1)), Ok(wanted(&[1, 3], 2)));
        assert_eq!(wav_of(&whole(2, &[1, 2, 3, 4]), Some(2)), Ok(wanted(&[2, 4], 2)));
        assert_eq!(wav_of(&extensible(1), None), Ok(wanted(&[1], 1)));
    }

    /// Chunks of either parity before the data, and whatever comes after it.
    #[test]
    fn other_chunks() {
        let (odd, even) = (chunk_of("LIST", &[7; 5]), chunk_of("bext", &[7; 6]));
        let data = chunk_of("data", &le(&[5, 6]));
        let read = wav_of(&riff(&[odd.clone(), fmt(1, 1, 16), even, data.clone(), odd]), None).unwrap();
        assert_eq!(read.samples, [5, 6]);
        // An odd chunk at the end may lack its last byte; what is after the data is not looked at.
        let after = riff(&[fmt(1, 1, 16), data, vec![1, 2, 3]]);
        assert_eq!(wav_of(&after, None).unwrap().samples, [5, 6]);
    }

    fn why(bytes: &[u8]) -> String {
        let told = wav_of(bytes, None).unwrap_err().to_string();
        let told = told.strip_prefix("106: the sound file is not taken: ").unwrap();
        told.strip_suffix("; a WAV file of 16-bit PCM samples is taken").unwrap().into()
    }

    #[test]
    fn of_another_kind() {
        let with = |format: Vec<u8>| why(&riff(&[format, chunk_of("data", &[0; 8])]));
        assert_eq!(with(fmt(1, 1, 8)), "its samples have 8 bits");
        assert_eq!(with(fmt(1, 2, 24)), "its samples have 24 bits");
        assert_eq!(with(fmt(3, 1, 32)), "its samples are floating-point numbers of 32 bits");
        assert_eq!(with(fmt(0x55, 2, 16)), "its samples are coded in another way, format 85 (MP3)");
        assert_eq!(with(fmt(0x1234, 1, 16)), "its samples are coded in another way, format 4660");
        assert_eq!(why(&extensible(3)), "its samples are floating-point numbers of 16 bits");
        assert_eq!(with(fmt(0xfffe, 1, 16)), "its samples are coded in another way, format 65534");
        assert_eq!(with(fmt(1, 0, 16)), "it has no channel");
        let mut frame = fmt(1, 2, 16);
        frame[20] = 6;
        assert_eq!(with(frame), "its frames have 6 bytes, and 2 channels of 16 bits have 4");
        assert_eq!(with(chunk_of("fmt ", &[1; 14])), "its fmt chunk has 14 bytes, fewer than 16");
        assert_eq!(why(b"OggS........"), "it does not begin as a WAV file, with RIFF and WAVE");
        let other = "its data comes before its fmt chunk";
        assert_eq!(why(&riff(&[chunk_of("data", &[0; 2]), fmt(1, 1, 16)])), other);
    }

    /// Cut anywhere, a file is refused and told where it ends.
    #[test]
    fn cut_short() {
        let whole = whole(1, &[1, 2, 3]);
        assert_eq!(why(&[]), "it is cut short: 0 bytes, and its header alone has 12");
        assert_eq!(why(&whole[..11]), "it is cut short: 11 bytes, and its header alone has 12");
        assert_eq!(why(&whole[..12]), "it has no fmt chunk and no data, or is cut short before it");
        assert_eq!(why(&whole[..19]), "it is cut short: 7 bytes of a chunk's header of 8");
        assert_eq!(why(&whole[..30]), "it is cut short: its fmt has 16 bytes, of which 10 are there");
        assert_eq!(why(&whole[..36]), "it has no data, or is cut short before it");
        assert_eq!(why(&whole[..49]), "it is cut short: its data has 6 bytes, of which 5 are there");
        assert!((0..whole.len()).all(|len| wav_of(&whole[..len], None).is_err()) && wav_of(&whole, None).is_ok());
        let odd = riff(&[fmt(1, 2, 16), chunk_of("data", &[0; 6])]);
        assert_eq!(why(&odd), "its data has 6 bytes, not a whole number of frames of 4");
    }

    /// A length of 0 that was never written again: samples follow, of sound or of silence.
    #[test]
    fn not_ended() {
        let with = |after: &[u8]| riff(&[fmt(1, 1, 16), chunk_of("data", &[]), after.to_vec()]);
        let told = |count: usize| {
            let follow = format!("its data is of 0 bytes, and {count} follow that are no chunk");
            format!("{follow}, as where a recorder did not end its file")
        };
        assert_eq!(why(&with(&le(&[5; 100]))), told(200));
        assert_eq!(why(&with(&[0; 16])), told(16));
        assert_eq!(why(&with(&[1])), told(1));
        let empty = |after: &[u8]| wav_of(&with(after), None).unwrap().samples.is_empty();
        assert!(empty(&[]) && empty(&[chunk_of("LIST", &[7; 5]), chunk_of("bext", &[0; 6])].concat()));
        let mut name = chunk_of("LIST", &[7; 6]);
        name[..4].copy_from_slice(b"\x1b[2J");
        assert_eq!(why(&riff(&[name])[..24]), "it is cut short: its \\x1b[2J has 6 bytes, of which 4 are there");
    }

    #[test]
    fn channels() {
        let told = |channels: u16, channel: Option<u32>| {
            let samples = vec![0; channels.into()];
            wav_of(&whole(channels, &samples), channel).unwrap_err().to_string()
        };
        let taken = "106: the sound file is not taken";
        let two = "it has 2 channels, and a panel shows one; --channel 1 or --channel 2 takes one of them";
        let six = "it has 6 channels, and a panel shows one; --channel 1 to --channel 6 takes one of them";
        assert_eq!([told(2, None), told(6, None)], [format!("{taken}: {two}"), format!("{taken}: {six}")]);
        let none = "107: the file has no such channel";
        assert_eq!(told(2, Some(3)), format!("{none}: --channel 3; it has channels 1 to 2"));
        assert_eq!(told(1, Some(0)), format!("{none}: --channel 0; it has channel 1 alone"));
    }

    #[test]
    fn samples_alone() {
        let kept = Kept { channel: None, rate: Some(8_000) };
        let wanted = Sound { samples: vec![-2, 256], rate: Some(8_000), channels: 1 };
        assert_eq!(raw(&[0xfe, 0xff, 0, 1], kept), Ok(wanted));
        let problem = raw(&[0; 5], kept).unwrap_err().to_string();
        let taken = "signed 16-bit little-endian samples of one channel are taken";
        let why = "it has 5 bytes, not a whole number of samples";
        assert_eq!(problem, format!("106: the sound file is not taken: {why}; {taken}"));
    }

    /// The file's own rate; where it says 0, the one that is given.
    #[test]
    fn rates() {
        let mut bytes = whole(1, &[1]);
        let with = |bytes: &[u8], rate: Option<u32>| wav(bytes, Kept { channel: None, rate });
        let why = "--rate is for files that do not say theirs; this one says 48000";
        let problem = with(&bytes, Some(8_000)).unwrap_err();
        assert_eq!(problem.to_string(), format!("100: the command line is not understood: {why}"));
        bytes[24..28].fill(0);
        assert_eq!([None, Some(8_000)].map(|rate| with(&bytes, rate).unwrap().rate), [None, Some(8_000)]);
    }

    #[test]
    fn by_suffix() {
        let told = |file: &str| read(file, Kept::default()).unwrap_err().to_string();
        let suffix = "103: the file's suffix is none that is known here: .wav or .raw is wanted (x.mp3)";
        assert_eq!(told("x.mp3"), suffix);
        assert!(told("nowhere.WAV").starts_with("101: the file cannot be read: "));
    }
}
