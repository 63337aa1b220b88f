//! PNG files of three bytes a pixel. The writer makes one compressed part:
//! matches are looked for one pixel back and one row back, and codes are the
//! fixed ones of deflate. The reader shares nothing with it; it takes any file
//! of three bytes a pixel that is not interlaced, and checks every sum.

/// The file of a picture.
pub fn encode(width: u32, height: u32, pixels: &[u8]) -> Vec<u8> {
    let row = 3 * width as usize;
    let raw: Vec<u8> = pixels.chunks(row).flat_map(|line| std::iter::once(0).chain(line.iter().copied())).collect();
    let mut file = b"\x89PNG\r\n\x1a\n".to_vec();
    let mut header = Vec::new();
    header.extend(width.to_be_bytes());
    header.extend(height.to_be_bytes());
    header.extend([8, 2, 0, 0, 0]);
    chunk(&mut file, b"IHDR", &header);
    chunk(&mut file, b"IDAT", &compressed(&raw, row + 1));
    chunk(&mut file, b"IEND", &[]);
    file
}

fn chunk(file: &mut Vec<u8>, name: &[u8; 4], body: &[u8]) {
    file.extend((body.len() as u32).to_be_bytes());
    let start = file.len();
    file.extend(name);
    file.extend(body);
    let sum = file[start..].iter().fold(!0, |crc, byte| {
        (0..8).fold(crc ^ u32::from(*byte), |c, _| if c & 1 == 1 { c >> 1 ^ 0xedb8_8320 } else { c >> 1 })
    });
    file.extend((!sum).to_be_bytes());
}

/// Bits from the lowest, as deflate packs them.
struct Bits {
    bytes: Vec<u8>,
    held: u64,
    count: u32,
}

impl Bits {
    fn put(&mut self, value: u32, count: u32) {
        self.held |= u64::from(value) << self.count;
        self.count += count;
        while self.count >= 8 {
            self.bytes.push(self.held as u8);
            self.held >>= 8;
            self.count -= 8;
        }
    }

    /// A code goes in from its highest bit.
    fn code(&mut self, value: u32, count: u32) {
        self.put(value.reverse_bits() >> (32 - count), count);
    }

    fn symbol(&mut self, symbol: u32) {
        match symbol {
            0..=143 => self.code(0x30 + symbol, 8),
            144..=255 => self.code(0x190 + symbol - 144, 9),
            256..=279 => self.code(symbol - 256, 7),
            _ => self.code(0xc0 + symbol - 280, 8),
        }
    }
}

/// The code of a length or a distance less its least, with how many extra bits
/// it has and what they are: after the first codes, `each` codes for every
/// further extra bit.
fn stepped(value: u32, each: u32) -> (u32, u32, u32) {
    if value < 2 * each {
        return (value, 0, 0);
    }
    let extra = 31 - (value / each).leading_zeros();
    (each * extra + (value >> extra), extra, value & ((1 << extra) - 1))
}

fn compressed(raw: &[u8], row: usize) -> Vec<u8> {
    let mut bits = Bits { bytes: vec![0x78, 0x01], held: 0, count: 0 };
    bits.put(0b011, 3);
    let mut at = 0;
    while at < raw.len() {
        let (length, back) = longest(raw, at, row);
        if length < 4 {
            bits.symbol(raw[at].into());
            at += 1;
            continue;
        }
        let (code, extra, rest) = stepped(length as u32 - 3, 4);
        bits.symbol(257 + code);
        bits.put(rest, extra);
        let (code, extra, rest) = stepped(back as u32 - 1, 2);
        bits.code(code, 5);
        bits.put(rest, extra);
        at += length;
    }
    bits.symbol(256);
    bits.put(0, 7);
    let (a, b) = raw.iter().fold((1, 0), |(a, b), byte| {
        let a = (a + u32::from(*byte)) % 65521;
        (a, (b + a) % 65521)
    });
    bits.bytes.extend((b << 16 | a).to_be_bytes());
    bits.bytes
}

/// The longer of the two matches, at most 257 bytes.
fn longest(raw: &[u8], at: usize, row: usize) -> (usize, usize) {
    let run = |back: usize| match at >= back {
        true => raw[at..].iter().zip(&raw[at - back..]).take(257).take_while(|(a, b)| a == b).count(),
        false => 0,
    };
    [3, row].map(|back| (run(back), back)).into_iter().max().unwrap_or((0, 1))
}

/// A picture read back: its width, its height, three bytes a pixel.
pub type Picture = (u32, u32, Vec<u8>);

/// Reads a file; what is wrong with it, if something is.
pub fn decode(file: &[u8]) -> Result<Picture, &'static str> {
    let mut rest = file.strip_prefix(b"\x89PNG\r\n\x1a\n").ok_or("not a PNG file")?;
    let mut header = None;
    let mut packed = Vec::new();
    loop {
        let (name, body, after) = next_chunk(rest)?;
        rest = after;
        match name {
            b"IHDR" => header = Some(read_header(body)?),
            b"IDAT" => packed.extend(body),
            b"IEND" => break,
            _ if name[0] & 32 == 0 => return Err("a part that must be known and is not"),
            _ => {}
        }
    }
    let (width, height) = header.ok_or("no header")?;
    let lines = unpacked(&packed)?;
    Ok((width, height, unfiltered(width as usize, height as usize, lines)?))
}

type Chunk<'a> = (&'a [u8], &'a [u8], &'a [u8]);

fn next_chunk(rest: &[u8]) -> Result<Chunk<'_>, &'static str> {
    let four = |at: usize| rest.get(at..at + 4).ok_or("the file ends early").map(word);
    let length = four(0)? as usize;
    let sum = four(8 + length)?;
    if crc(&rest[4..8 + length]) != sum {
        return Err("a part's sum is wrong");
    }
    Ok((&rest[4..8], &rest[8..8 + length], &rest[12 + length..]))
}

fn word(bytes: &[u8]) -> u32 {
    bytes.iter().fold(0, |word, byte| word << 8 | u32::from(*byte))
}

/// By a table of the sums of single bytes.
fn crc(bytes: &[u8]) -> u32 {
    let mut table = [0u32; 256];
    for (byte, entry) in table.iter_mut().enumerate() {
        *entry = byte as u32;
        for _ in 0..8 {
            let low = *entry & 1;
            *entry = (*entry >> 1) ^ (low * 0xedb8_8320);
        }
    }
    let mut sum = u32::MAX;
    for byte in bytes {
        sum = table[((sum ^ u32::from(*byte)) & 255) as usize] ^ sum >> 8;
    }
    sum ^ u32::MAX
}

fn read_header(body: &[u8]) -> Result<(u32, u32), &'static str> {
    if body.len() != 13 || body[8..] != [8, 2, 0, 0, 0] {
        return Err("not three bytes a pixel, or interlaced");
    }
    Ok((word(&body[..4]), word(&body[4..8])))
}

/// Undoes each line's filter.
fn unfiltered(width: usize, height: usize, lines: Vec<u8>) -> Result<Vec<u8>, &'static str> {
    let row = 3 * width;
    if lines.len() != (row + 1) * height {
        return Err("not as many bytes as the header says");
    }
    let mut pixels: Vec<u8> = Vec::with_capacity(row * height);
    for y in 0..height {
        let line = &lines[y * (row + 1)..][..row + 1];
        for x in 0..row {
            let above = if y > 0 { i32::from(pixels[(y - 1) * row + x]) } else { 0 };
            let left = if x >= 3 { i32::from(pixels[y * row + x - 3]) } else { 0 };
            let corner = if x >= 3 && y > 0 { i32::from(pixels[(y - 1) * row + x - 3]) } else { 0 };
            let near = match line[0] {
                0 => 0,
                1 => left,
                2 => above,
                3 => (left + above) / 2,
                4 => [left, above, corner].into_iter().min_by_key(|v| (left + above - corner - v).abs()).unwrap_or(0),
                _ => return Err("no such filter"),
            };
            pixels.push(line[1 + x].wrapping_add(near as u8));
        }
    }
    Ok(pixels)
}

/// A compressed stream, bit by bit.
struct Stream<'a> {
    bytes: &'a [u8],
    bit: usize,
}

impl Stream<'_> {
    fn bits(&mut self, count: usize) -> Result<usize, &'static str> {
        let mut value = 0;
        for k in 0..count {
            let byte = self.bytes.get(self.bit / 8).ok_or("the stream ends early")?;
            value |= usize::from(byte >> (self.bit % 8) & 1) << k;
            self.bit += 1;
        }
        Ok(value)
    }

    /// The next symbol of a code, given as how many symbols there are of each
    /// length and the symbols in order.
    fn symbol(&mut self, (counts, symbols): &Code) -> Result<usize, &'static str> {
        let (mut code, mut first, mut index) = (0, 0, 0);
        for count in &counts[1..] {
            code = code << 1 | self.bits(1)?;
            if code < first + count {
                return Ok(symbols[index + code - first]);
            }
            index += count;
            first = (first + count) << 1;
        }
        Err("a code that stands for nothing")
    }
}

type Code = ([usize; 16], Vec<usize>);

fn code_of(lengths: &[usize]) -> Code {
    let mut counts = [0; 16];
    lengths.iter().filter(|length| **length > 0).for_each(|length| counts[*length] += 1);
    let mut symbols: Vec<usize> = (0..lengths.len()).filter(|symbol| lengths[*symbol] > 0).collect();
    symbols.sort_by_key(|symbol| lengths[*symbol]);
    (counts, symbols)
}

fn unpacked(packed: &[u8]) -> Result<Vec<u8>, &'static str> {
    let sound = packed.len() > 6 && packed[0] & 15 == 8 && word(&packed[..2]) % 31 == 0 && packed[1] & 32 == 0;
    if !sound {
        return Err("not a compressed stream");
    }
    let mut stream = Stream { bytes: &packed[2..packed.len() - 4], bit: 0 };
    let mut found = Vec::new();
    loop {
        let last = stream.bits(1)?;
        match stream.bits(2)? {
            0 => stored(&mut stream, &mut found)?,
            1 => {
                let lengths: Vec<usize> = (0..288)
                    .map(|k| [(144, 8), (256, 9), (280, 7)].iter().find(|(end, _)| k < *end).map_or(8, |p| p.1))
                    .collect();
                block(&mut stream, &mut found, &code_of(&lengths), &code_of(&[5; 30]))?;
            }
            2 => {
                let (literals, distances) = codes(&mut stream)?;
                block(&mut stream, &mut found, &literals, &distances)?;
            }
            _ => return Err("no such kind of block"),
        }
        if last == 1 {
            break;
        }
    }
    let low = found.iter().fold(1u64, |sum, byte| (sum + u64::from(*byte)) % 65521);
    let weighed = found.iter().enumerate().map(|(k, byte)| (found.len() - k) as u64 % 65521 * u64::from(*byte));
    let high = weighed.fold(found.len() as u64, |sum, part| (sum + part) % 65521) % 65521;
    if u64::from(word(&packed[packed.len() - 4..])) != high << 16 | low {
        return Err("the stream's sum is wrong");
    }
    Ok(found)
}

fn stored(stream: &mut Stream, found: &mut Vec<u8>) -> Result<(), &'static str> {
    stream.bit = (stream.bit + 7) / 8 * 8;
    let (length, check) = (stream.bits(16)?, stream.bits(16)?);
    if length ^ check != 0xffff {
        return Err("a stored block's length is wrong");
    }
    for _ in 0..length {
        found.push(stream.bits(8)? as u8);
    }
    Ok(())
}

/// The codes that a block brings with it.
fn codes(stream: &mut Stream) -> Result<(Code, Code), &'static str> {
    const ORDER: [usize; 19] = [16, 17, 18, 0, 8, 7, 9, 6, 10, 5, 11, 4, 12, 3, 13, 2, 14, 1, 15];
    let (literals, distances, count) = (stream.bits(5)? + 257, stream.bits(5)? + 1, stream.bits(4)? + 4);
    let mut lengths = [0; 19];
    for place in &ORDER[..count] {
        lengths[*place] = stream.bits(3)?;
    }
    let code = code_of(&lengths);
    let mut lengths: Vec<usize> = Vec::new();
    while lengths.len() < literals + distances {
        let (value, times) = match stream.symbol(&code)? {
            16 => (*lengths.last().ok_or("nothing to repeat")?, 3 + stream.bits(2)?),
            17 => (0, 3 + stream.bits(3)?),
            18 => (0, 11 + stream.bits(7)?),
            length => (length, 1),
        };
        lengths.extend(std::iter::repeat(value).take(times));
    }
    Ok((code_of(&lengths[..literals]), code_of(&lengths[literals..literals + distances])))
}

fn block(stream: &mut Stream, found: &mut Vec<u8>, literals: &Code, distances: &Code) -> Result<(), &'static str> {
    const LENGTHS: [usize; 29] = [
        3, 4, 5, 6, 7, 8, 9, 10, 11, 13, 15, 17, 19, 23, 27, 31, 35, 43, 51, 59, 67, 83, 99, 115, 131, 163, 195, 227,
        258,
    ];
    const BITS: [usize; 29] = [0, 0, 0, 0, 0, 0, 0, 0, 1, 1, 1, 1, 2, 2, 2, 2, 3, 3, 3, 3, 4, 4, 4, 4, 5, 5, 5, 5, 0];
    loop {
        let symbol = stream.symbol(literals)?;
        match symbol {
            0..=255 => found.push(symbol as u8),
            256 => return Ok(()),
            _ => {
                let k = symbol - 257;
                let length = LENGTHS.get(k).ok_or("no such length")? + stream.bits(BITS[k])?;
                let d = stream.symbol(distances)?;
                let extra = if d < 4 { 0 } else { d / 2 - 1 };
                let least = if d < 4 { d + 1 } else { ((2 + d % 2) << extra) + 1 };
                let back = least + stream.bits(extra)?;
                let from = found.len().checked_sub(back).ok_or("a match before the start")?;
                for at in from..from + length {
                    found.push(found[at]);
                }
            }
        }
    }
}

#[cfg(test)]
mod tests {
    use super::*;
    use crate::rng::Rng;

    /// Pictures of every kind of run: noise, plain, stripes, few colours.
    #[test]
    fn there_and_back() {
        let mut rng = Rng::new(5);
        for (width, height) in [(1, 1), (2, 3), (16, 4), (33, 17), (320, 5), (640, 48)] {
            for colours in [1, 2, 7, 256] {
                let pixels: Vec<u8> = (0..3 * width * height).map(|_| (rng.next() % colours) as u8).collect();
                let file = encode(width, height, &pixels);
                assert_eq!(decode(&file), Ok((width, height, pixels)));
            }
        }
    }

    /// A file of another writer: 2 by 2, codes of its own, each line with another filter.
    #[test]
    fn another_writer() {
        let file = include_bytes!("../tests/other.png");
        let (width, height, pixels) = decode(file).unwrap();
        assert_eq!((width, height), (40, 5));
        for (k, pixel) in pixels.chunks(3).enumerate() {
            let (x, y) = (k % 40, k / 40);
            assert_eq!(pixel, [(x * 6) as u8, (y * 50) as u8, (x * y) as u8]);
        }
    }

    #[test]
    fn damage_is_seen() {
        let file = encode(16, 4, &[9; 3 * 64]);
        for at in 0..file.len() {
            let mut damaged = file.clone();
            damaged[at] ^= 1;
            assert!(decode(&damaged).is_err(), "byte {at}");
            assert!(decode(&file[..at]).is_err(), "cut at {at}");
        }
    }
}
