//! 02's M-104, the waveform panel, in its words. [`panel`] goes column by column
//! and row by row, and knows no triangles; [`in_triangles`] draws each bar as "two
//! triangles with a common diagonal". By 02 both come to the same.

use crate::{draw, ram_too_long, set_half_word, sound, Drawn, Plane, Screen, Triangle, Vertex};

/// 02, M-104: "Input: 0 to 40,960 signed 16-bit samples, n samples per column (1
/// to 64), an offset d (-2,048 to 2,047 samples), a sound screen, one colour."
/// (The screen comes with the RAM that it is in.)
#[derive(Clone, Copy, Debug, PartialEq, Eq)]
pub struct Input<'a> {
    pub samples: &'a [i16],
    pub n: i32,
    pub d: i32,
    pub colour: u16,
}

/// 02, M-104: "New number 10 for a bad sample count, n or d, after 3 and 5".
pub fn panel_number(ram_bytes: usize, screen: Screen, input: &Input) -> u32 {
    if ram_too_long(ram_bytes) {
        return 3;
    }
    if !sound(ram_bytes, screen) {
        return 5;
    }
    let bad_count = input.samples.len() > 40_960;
    let bad_n = input.n < 1 || input.n > 64;
    let bad_d = input.d < -2048 || input.d > 2047;
    if bad_count || bad_n || bad_d {
        return 10;
    }
    0
}

/// 02, M-104: "Column x takes samples x·n + d to x·n + d + n - 1, leaving out
/// those that do not exist." (They are counted from 0.)
pub fn column(input: &Input, x: i128) -> Vec<i128> {
    let (n, d) = (i128::from(input.n), i128::from(input.d));
    let mut taken = Vec::new();
    for number in x * n + d..=x * n + d + n - 1 {
        let exists = number >= 0 && number < input.samples.len() as i128;
        if exists {
            taken.push(i128::from(input.samples[number as usize]));
        }
    }
    taken
}

/// 02, M-104: "v stands at row floor((32767 - v) × height / 65536)".
pub fn row_of(v: i128, height: i128) -> i128 {
    ((32767 - v) * height).div_euclid(65536)
}

/// 02, M-104: "A column with none draws nothing. Otherwise it fills the rows from
/// that of the largest sample to that of the smallest". The first row and the last.
pub fn bar(input: &Input, height: i128, x: i128) -> Option<(i128, i128)> {
    let taken = column(input, x);
    let largest = *taken.iter().max()?;
    let smallest = *taken.iter().min()?;
    Some((row_of(largest, height), row_of(smallest, height)))
}

/// 02, M-104: the number, with the count of the pixels that got the colour.
#[derive(Clone, Copy, Debug, PartialEq, Eq)]
pub struct Panelled {
    pub number: u32,
    pub pixels: u32,
}

/// 02, M-104: "it fills the rows ... with depth 0 ... and exactly those pixels get
/// the colour."
pub fn panel(ram: &mut [u8], screen: Screen, input: &Input) -> Panelled {
    let number = panel_number(ram.len(), screen, input);
    if number != 0 {
        // "a refusal draws nothing".
        return Panelled { number, pixels: 0 };
    }
    let mut pixels = 0;
    for x in 0..screen.width() {
        let Some((first, last)) = bar(input, screen.height(), x) else { continue };
        for y in first..=last {
            let place = screen.place(x, y);
            set_half_word(ram, i128::from(screen.colour_start) + place, i128::from(input.colour));
            set_half_word(ram, i128::from(screen.depth_start) + place, 0);
            pixels += 1;
        }
    }
    Panelled { number: 0, pixels }
}

/// 02, M-104: "two triangles with a common diagonal". It does not say which of the
/// two diagonals.
#[derive(Clone, Copy, Debug, PartialEq, Eq)]
pub enum Diagonal {
    /// From the lower left corner to the upper right one.
    Rising,
    /// From the upper left corner to the lower right one.
    Falling,
}

/// 02, M-104: "Each bar is two triangles": the whole pixels of column x from row
/// `first` to row `last`, from edge to edge, in eighths of a pixel.
pub fn bar_in_triangles(x: i128, first: i128, last: i128, colour: u16, diagonal: Diagonal) -> [Triangle; 2] {
    let corner = |x: i128, y: i128| Vertex { x: 8 * x as i32, y: 8 * y as i32 };
    let (upper_left, upper_right) = (corner(x, first), corner(x + 1, first));
    let (lower_left, lower_right) = (corner(x, last + 1), corner(x + 1, last + 1));
    // In the order that draws, as (0,0), (32,0), (0,32) is.
    let halves = match diagonal {
        Diagonal::Rising => [[upper_left, upper_right, lower_left], [lower_right, lower_left, upper_right]],
        Diagonal::Falling => [[upper_left, upper_right, lower_right], [lower_right, lower_left, upper_left]],
    };
    let flat = |value: u16| Plane { c: i32::from(value) * 65536, a: 0, b: 0 };
    // 01: "Colour is red × 2048 + green × 32 + blue (5, 6, 5 bits)."
    let (red, green, blue) = (flat(colour / 2048), flat(colour / 32 % 64), flat(colour % 32));
    halves.map(|vertices| Triangle { vertices, depth: flat(0), red, green, blue })
}

/// The panel once more, bar by bar in triangles. Number and counts are those of
/// all triangles together.
pub fn in_triangles(ram: &mut [u8], screen: Screen, input: &Input, diagonal: Diagonal) -> Drawn {
    let mut all = Drawn { number: panel_number(ram.len(), screen, input), covered: 0, written: 0 };
    if all.number != 0 {
        return all;
    }
    for x in 0..screen.width() {
        let Some((first, last)) = bar(input, screen.height(), x) else { continue };
        for triangle in bar_in_triangles(x, first, last, input.colour, diagonal) {
            let drawn = draw(ram, screen, &triangle);
            all.number = all.number.max(drawn.number);
            all.covered += drawn.covered;
            all.written += drawn.written;
        }
    }
    all
}

#[cfg(test)]
mod tests {
    use super::*;

    const SCREEN: Screen = Screen { colour_start: 0, depth_start: 128, size_number: 516 };

    fn input(samples: &[i16], n: i32, d: i32) -> Input<'_> {
        Input { samples, n, d, colour: 0x1234 }
    }

    /// For a height of 4 the rows begin at these values; each is followed by the
    /// last of its row.
    #[test]
    fn rows_of_four() {
        let ends = [32767, 16384, 16383, 0, -1, -16384, -16385, -32768];
        assert_eq!(ends.map(|v| row_of(v, 4)), [0, 0, 1, 1, 2, 2, 3, 3]);
        assert_eq!([32767, 32631, 32630, 0, -1, -32768].map(|v| row_of(v, 480)), [0, 0, 1, 239, 240, 479]);
    }

    #[test]
    fn columns_leave_out_what_is_not_there() {
        let samples = [10, 11, 12, 13, 14];
        let taken = |n: i32, d: i32| [0, 1, 2].map(|x| column(&input(&samples, n, d), x));
        assert_eq!(taken(2, 0), [vec![10, 11], vec![12, 13], vec![14]]);
        assert_eq!(taken(2, -3), [vec![], vec![10], vec![11, 12]]);
        assert_eq!(taken(3, 4), [vec![14], vec![], vec![]]);
        assert_eq!(taken(64, -63), [vec![10], vec![11, 12, 13, 14], vec![]]);
    }

    /// Two bars and nothing else: four half-words of colour, four of depth.
    #[test]
    fn drawn_by_hand() {
        let samples = [20000, -1, 0];
        let mut ram = [0xff; 256];
        assert_eq!(panel(&mut ram, SCREEN, &input(&samples, 2, 0)), Panelled { number: 0, pixels: 4 });
        let mut wanted = [0xff; 256];
        for pixel in [0, 16, 32, 17] {
            wanted[2 * pixel..][..2].copy_from_slice(&[0x12, 0x34]);
            wanted[128 + 2 * pixel..][..2].copy_from_slice(&[0, 0]);
        }
        assert_eq!(ram, wanted);
    }

    /// "Each bar is two triangles with a common diagonal, and exactly those pixels
    /// get the colour": all bars of a screen of 4 rows, by either diagonal.
    #[test]
    fn two_triangles_a_bar() {
        let values = [32767, 0, -1, -32768];
        let samples: Vec<i16> = values.iter().flat_map(|&a| values.map(|b| [a, b])).flatten().collect();
        for diagonal in [Diagonal::Rising, Diagonal::Falling] {
            let (mut first, mut second) = ([0xff; 256], [0xff; 256]);
            let Panelled { number, pixels } = panel(&mut first, SCREEN, &input(&samples, 2, 0));
            let drawn = in_triangles(&mut second, SCREEN, &input(&samples, 2, 0), diagonal);
            assert_eq!(drawn, Drawn { number, covered: pixels, written: pixels });
            assert_eq!((pixels, first), (36, second));
        }
    }

    #[test]
    fn numbers_in_order() {
        let many = vec![0; 40_961];
        let number = |ram: usize, screen: Screen, input: Input| panel_number(ram, screen, &input);
        let odd = Screen { colour_start: 1, ..SCREEN };
        assert_eq!(number(256, SCREEN, input(&many[1..], 64, 2047)), 0);
        assert_eq!(number(256, SCREEN, input(&[], 1, -2048)), 0);
        let bad_d = [input(&[], 1, 2048), input(&[], 1, -2049)];
        for bad in [input(&many, 1, 0), input(&[], 0, 0), input(&[], 65, 0)].into_iter().chain(bad_d) {
            assert_eq!(number(256, SCREEN, bad), 10);
            assert_eq!(number(256, odd, bad), 5);
            assert_eq!(number(4_194_305, odd, bad), 3);
            assert_eq!(panel(&mut [7; 256], SCREEN, &bad), Panelled { number: 10, pixels: 0 });
        }
    }
}
