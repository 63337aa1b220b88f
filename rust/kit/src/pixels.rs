//! Pixels of 5, 6 and 5 bits, and files of them.

/// A colour half-word as three bytes, each part spread over its byte.
pub fn rgb(colour: u16) -> [u8; 3] {
    let spread = |value: u16, most: u32| (u32::from(value) * 255 / most) as u8;
    [spread(colour >> 11, 31), spread(colour >> 5 & 63, 63), spread(colour & 31, 31)]
}

/// The half-words of big-endian bytes.
pub fn halves(bytes: &[u8]) -> impl Iterator<Item = u16> + '_ {
    bytes.chunks_exact(2).map(|half| u16::from_be_bytes([half[0], half[1]]))
}

/// Three bytes a pixel, of colours row by row.
pub fn rgb_rows(colours: &[u16]) -> Vec<u8> {
    colours.iter().flat_map(|&colour| rgb(colour)).collect()
}

/// A PPM file (P6).
pub fn ppm(width: u32, height: u32, colours: &[u16]) -> Vec<u8> {
    let mut file = format!("P6\n{width} {height}\n255\n").into_bytes();
    file.extend(rgb_rows(colours));
    file
}

/// Four hexadecimal digits a pixel, a line a row.
pub fn text(width: u32, colours: &[u16]) -> String {
    let line = |row: &[u16]| row.iter().map(|colour| format!("{colour:04x}")).collect::<Vec<_>>().join(" ") + "\n";
    colours.chunks(width as usize).map(line).collect()
}

#[cfg(test)]
mod tests {
    use super::*;

    #[test]
    fn colours() {
        assert_eq!(rgb(0), [0, 0, 0]);
        assert_eq!(rgb(0xffff), [255, 255, 255]);
        assert_eq!(rgb(16 << 11 | 1), [131, 0, 8]);
        assert_eq!(halves(&[1, 2, 3, 4]).collect::<Vec<_>>(), [0x0102, 0x0304]);
    }

    #[test]
    fn files() {
        assert_eq!(ppm(2, 1, &[0xffff, 0]), b"P6\n2 1\n255\n\xff\xff\xff\0\0\0");
        assert_eq!(text(2, &[1, 0xabcd, 3, 4]), "0001 abcd\n0003 0004\n");
    }
}
