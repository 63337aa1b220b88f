//! Letters and digits of 5 by 7 blocks.

/// A letter's blocks side by side, and its rows of them.
pub const WIDE: usize = 5;
pub const HIGH: usize = 7;

/// From a letter's left side to the next one's.
pub const ADVANCE: usize = 6;

/// The letters that the pictures and the panel's ruler use.
const GLYPHS: [(char, [&str; HIGH]); 34] = [
    (' ', ["     ", "     ", "     ", "     ", "     ", "     ", "     "]),
    ('.', ["     ", "     ", "     ", "     ", "     ", " ##  ", " ##  "]),
    ('0', [" ### ", "#   #", "#  ##", "# # #", "##  #", "#   #", " ### "]),
    ('1', ["  #  ", " ##  ", "  #  ", "  #  ", "  #  ", "  #  ", " ### "]),
    ('2', [" ### ", "#   #", "    #", "   # ", "  #  ", " #   ", "#####"]),
    ('3', [" ### ", "#   #", "    #", "  ## ", "    #", "#   #", " ### "]),
    ('4', ["   # ", "  ## ", " # # ", "#  # ", "#####", "   # ", "   # "]),
    ('5', ["#####", "#    ", "#### ", "    #", "    #", "#   #", " ### "]),
    ('6', ["  ## ", " #   ", "#    ", "#### ", "#   #", "#   #", " ### "]),
    ('7', ["#####", "    #", "   # ", "  #  ", " #   ", " #   ", " #   "]),
    ('8', [" ### ", "#   #", "#   #", " ### ", "#   #", "#   #", " ### "]),
    ('9', [" ### ", "#   #", "#   #", " ####", "    #", "   # ", " ##  "]),
    ('A', [" ### ", "#   #", "#   #", "#####", "#   #", "#   #", "#   #"]),
    ('B', ["#### ", "#   #", "#   #", "#### ", "#   #", "#   #", "#### "]),
    ('C', [" ### ", "#   #", "#    ", "#    ", "#    ", "#   #", " ### "]),
    ('D', ["#### ", "#   #", "#   #", "#   #", "#   #", "#   #", "#### "]),
    ('E', ["#####", "#    ", "#    ", "#### ", "#    ", "#    ", "#####"]),
    ('F', ["#####", "#    ", "#    ", "#### ", "#    ", "#    ", "#    "]),
    ('G', [" ### ", "#   #", "#    ", "# ###", "#   #", "#   #", " ####"]),
    ('H', ["#   #", "#   #", "#   #", "#####", "#   #", "#   #", "#   #"]),
    ('I', [" ### ", "  #  ", "  #  ", "  #  ", "  #  ", "  #  ", " ### "]),
    ('L', ["#    ", "#    ", "#    ", "#    ", "#    ", "#    ", "#####"]),
    ('M', ["#   #", "## ##", "# # #", "# # #", "#   #", "#   #", "#   #"]),
    ('N', ["#   #", "##  #", "# # #", "#  ##", "#   #", "#   #", "#   #"]),
    ('O', [" ### ", "#   #", "#   #", "#   #", "#   #", "#   #", " ### "]),
    ('P', ["#### ", "#   #", "#   #", "#### ", "#    ", "#    ", "#    "]),
    ('R', ["#### ", "#   #", "#   #", "#### ", "# #  ", "#  # ", "#   #"]),
    ('S', [" ####", "#    ", "#    ", " ### ", "    #", "    #", "#### "]),
    ('T', ["#####", "  #  ", "  #  ", "  #  ", "  #  ", "  #  ", "  #  "]),
    ('U', ["#   #", "#   #", "#   #", "#   #", "#   #", "#   #", " ### "]),
    ('W', ["#   #", "#   #", "#   #", "# # #", "# # #", "## ##", "#   #"]),
    ('X', ["#   #", "#   #", " # # ", "  #  ", " # # ", "#   #", "#   #"]),
    ('m', ["     ", "     ", "## # ", "# # #", "# # #", "# # #", "# # #"]),
    ('s', ["     ", "     ", " ####", "#    ", " ### ", "    #", "#### "]),
];

/// A letter's rows, with `#` for a block.
pub fn glyph(letter: char) -> [&'static str; HIGH] {
    GLYPHS.iter().find(|(name, _)| *name == letter).expect("a letter that has blocks").1
}

/// How wide a text is, in blocks.
pub fn width(text: &str) -> usize {
    (text.chars().count() * ADVANCE).saturating_sub(ADVANCE - WIDE)
}

/// Where blocks of a row stand side by side: the first, and how many.
pub fn runs(blocks: &str) -> Vec<(usize, usize)> {
    let set: Vec<bool> = blocks.chars().map(|block| block == '#').collect();
    let starts = (0..WIDE).filter(|&k| set[k] && (k == 0 || !set[k - 1]));
    starts.map(|first| (first, set[first..].iter().take_while(|block| **block).count())).collect()
}

#[cfg(test)]
mod tests {
    use super::*;

    #[test]
    fn letters_are_5_by_7() {
        for (letter, rows) in GLYPHS {
            assert!(rows.iter().all(|row| row.len() == WIDE && row.chars().all(|c| " #".contains(c))), "{letter}");
            assert_eq!(glyph(letter), rows, "{letter} stands twice");
        }
    }

    #[test]
    fn blocks_side_by_side() {
        assert_eq!(runs("## ##"), [(0, 2), (3, 2)]);
        assert_eq!(runs("#####"), [(0, 5)]);
        assert_eq!(runs("  #  "), [(2, 1)]);
        assert!(runs("     ").is_empty());
    }

    #[test]
    fn widths() {
        assert_eq!(["", "0", "40 ms"].map(width), [0, 5, 29]);
    }
}
