//! A command line taken word by word.

/// What stands next on a command line.
#[derive(Clone, Debug, PartialEq, Eq)]
pub enum Arg {
    /// A word that begins with `-` and is more than that.
    Option(String),
    /// Any other word, and every word after `--`.
    Plain(String),
}

/// The words still to come.
pub struct Args {
    words: std::vec::IntoIter<String>,
    /// The last option, for messages about its value.
    option: String,
    only_plain: bool,
}

impl Args {
    /// The words after the program's own name.
    pub fn from_env() -> Result<Args, String> {
        let words: Result<Vec<String>, _> = std::env::args_os().skip(1).map(|word| word.into_string()).collect();
        match words {
            Ok(words) => Ok(Args::new(words)),
            Err(word) => Err(format!("not text: {}", word.to_string_lossy())),
        }
    }

    pub fn new(words: impl IntoIterator<Item = impl Into<String>>) -> Args {
        let words: Vec<String> = words.into_iter().map(Into::into).collect();
        Args { words: words.into_iter(), option: String::new(), only_plain: false }
    }

    /// The value of the option that came last: the next word, whatever it is.
    pub fn value(&mut self) -> Result<String, String> {
        self.words.next().ok_or(format!("{} needs a value", self.option))
    }

    /// The same as a number.
    pub fn number<T: TryFrom<i128>>(&mut self) -> Result<T, String> {
        number(&self.value()?)
    }
}

impl Iterator for Args {
    type Item = Arg;

    fn next(&mut self) -> Option<Arg> {
        let word = self.words.next()?;
        if word == "--" && !self.only_plain {
            self.only_plain = true;
            return self.next();
        }
        if self.only_plain || word.len() < 2 || !word.starts_with('-') || word[1..].parse::<f64>().is_ok() {
            return Some(Arg::Plain(word));
        }
        self.option = word.clone();
        Some(Arg::Option(word))
    }
}

/// A whole number, decimal or hexadecimal after 0x, with or without a sign.
pub fn number<T: TryFrom<i128>>(text: &str) -> Result<T, String> {
    let whole = whole(text).ok_or_else(|| format!("not a number: {text}"))?;
    T::try_from(whole).map_err(|_| format!("the number does not fit: {text}"))
}

fn whole(text: &str) -> Option<i128> {
    let (minus, digits) = match text.strip_prefix('-') {
        Some(digits) => (true, digits),
        None => (false, text),
    };
    // A second sign is none.
    if !digits.starts_with(|c: char| c.is_ascii_digit()) {
        return None;
    }
    let value = match digits.strip_prefix("0x").or_else(|| digits.strip_prefix("0X")) {
        Some(hex) if hex.starts_with(|c: char| c.is_ascii_hexdigit()) => i128::from_str_radix(hex, 16).ok()?,
        Some(_) => return None,
        None => digits.parse().ok()?,
    };
    Some(if minus { -value } else { value })
}

#[cfg(test)]
mod tests {
    use super::*;

    #[test]
    fn options_and_plain_words() {
        let mut args = Args::new(["run", "-o", "--x", "-5", "-", "--", "-o"]);
        assert_eq!(args.next(), Some(Arg::Plain("run".into())));
        assert_eq!(args.next(), Some(Arg::Option("-o".into())));
        assert_eq!(args.value(), Ok("--x".into()));
        assert_eq!(args.next(), Some(Arg::Plain("-5".into())));
        assert_eq!(args.next(), Some(Arg::Plain("-".into())));
        assert_eq!(args.next(), Some(Arg::Plain("-o".into())));
        assert_eq!(args.next(), None);
        assert_eq!(args.value(), Err("-o needs a value".into()));
    }

    #[test]
    fn numbers() {
        assert_eq!(number::<i32>("-12"), Ok(-12));
        assert_eq!(number::<u16>("0xFFff"), Ok(65535));
        assert_eq!(number::<i32>("-0x80000000"), Ok(i32::MIN));
        assert_eq!(number::<u16>("65536"), Err("the number does not fit: 65536".into()));
        for bad in ["", "-", "--1", "+1", "0x", "0x-1", "12a", "1 ", "x"] {
            assert_eq!(number::<i64>(bad), Err(format!("not a number: {bad}")));
        }
    }
}
