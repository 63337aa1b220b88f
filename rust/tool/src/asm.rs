//! The assembler: the paper's forms with labels, names, comments and `.word`.

use crate::problem::{self, Place, Problem};
use kit::words::{named, rri, rrr, Form, Opcode};
use std::collections::HashMap;

/// A program and, for each of its words, the line it came from.
#[derive(Debug)]
pub struct Assembled {
    pub words: Vec<u32>,
    pub lines: Vec<usize>,
}

#[derive(Clone, Copy)]
enum Name {
    Register(u32),
    Number(i64),
}

/// An instruction or a word still to be assembled.
struct Statement<'a> {
    line: usize,
    name: &'a str,
    operands: Vec<&'a str>,
}

/// Assembles a text; `file` is for messages.
pub fn assemble(file: &str, text: &str) -> Result<Assembled, Problem> {
    let mut names = HashMap::new();
    let mut statements = Vec::new();
    for (k, whole) in text.lines().enumerate() {
        let line = k + 1;
        read_line(line, whole, &mut names, &mut statements).map_err(|p| p.at(Place::line(file, line)))?;
    }
    let mut assembled = Assembled { words: Vec::new(), lines: Vec::new() };
    for statement in &statements {
        let word = word_of(statement, &names).map_err(|p| p.at(Place::line(file, statement.line)))?;
        assembled.words.push(word);
        assembled.lines.push(statement.line);
    }
    Ok(assembled)
}

/// Takes a line's labels and directives, and keeps what takes a place of the
/// program.
fn read_line<'a>(
    line: usize,
    whole: &'a str,
    names: &mut HashMap<String, Name>,
    statements: &mut Vec<Statement<'a>>,
) -> Result<(), Problem> {
    let mut rest = whole.split(';').next().unwrap_or("").trim();
    while let Some((label, after)) = rest.split_once(':') {
        add(names, label.trim(), Name::Number(statements.len() as i64))?;
        rest = after.trim();
    }
    if rest.is_empty() {
        return Ok(());
    }
    let (name, operands) = rest.split_once(char::is_whitespace).unwrap_or((rest, ""));
    let operands: Vec<&str> =
        if operands.trim().is_empty() { vec![] } else { operands.split(',').map(str::trim).collect() };
    match (name, &operands[..]) {
        (".reg", [new, register]) => {
            let number = register_of(register, names).ok_or_else(|| Problem::new(problem::OPERANDS, rest))?;
            add(names, new, Name::Register(number))
        }
        (".equ", [new, value]) => {
            let value = sum(value, names)?;
            add(names, new, Name::Number(value))
        }
        (".reg" | ".equ", _) => Err(Problem::new(problem::OPERANDS, rest)),
        _ => {
            statements.push(Statement { line, name, operands });
            Ok(())
        }
    }
}

/// A name is letters, digits and underscores, and begins with no digit.
fn is_name(text: &str) -> bool {
    let fits = |c: char| c.is_ascii_alphanumeric() || c == '_';
    !text.is_empty() && text.chars().all(fits) && !text.starts_with(|c: char| c.is_ascii_digit())
}

fn add(names: &mut HashMap<String, Name>, new: &str, meaning: Name) -> Result<(), Problem> {
    if !is_name(new) {
        return Err(Problem::new(problem::LINE, new));
    }
    if register_of(new, names).is_some() || names.insert(new.into(), meaning).is_some() {
        return Err(Problem::new(problem::NAME_TWICE, new));
    }
    Ok(())
}

fn register_of(text: &str, names: &HashMap<String, Name>) -> Option<u32> {
    if let Some(Name::Register(number)) = names.get(text) {
        return Some(*number);
    }
    let digits = text.strip_prefix(&['R', 'r'][..])?;
    let number = (0..32).find(|number: &u32| number.to_string() == digits)?;
    Some(number)
}

fn word_of(statement: &Statement, names: &HashMap<String, Name>) -> Result<u32, Problem> {
    let Statement { name, operands, .. } = statement;
    if *name == ".word" {
        return match operands[..] {
            [value] => fitting(value, names, -(1 << 31), (1 << 32) - 1).map(|value| value as u32),
            _ => Err(Problem::new(problem::OPERANDS, ".word VALUE")),
        };
    }
    let opcode = named(&name.to_uppercase()).ok_or_else(|| Problem::new(problem::NO_INSTRUCTION, *name))?;
    let wanted = || Problem::new(problem::OPERANDS, written(opcode));
    let register = |text: &str| register_of(text, names).ok_or_else(wanted);
    let number = opcode.number;
    match (opcode.form, &operands[..]) {
        (Form::Rrr, [r1, r2, r3]) => Ok(rrr(number, register(r1)?, register(r2)?, register(r3)?)),
        (Form::Rr, [r1, r2]) => Ok(rrr(number, register(r1)?, register(r2)?, 0)),
        (Form::Rri, [r1, r2, imm]) => {
            // All of this form read imm as unsigned.
            Ok(rri(number, register(r1)?, register(r2)?, fitting(imm, names, 0, (1 << 16) - 1)?))
        }
        (Form::Ra, [r1, at]) | (Form::Ar, [at, r1]) => {
            let (r2, imm) = address(at, names)?;
            Ok(rri(number, register(r1)?, r2, imm))
        }
        (Form::A, [at]) => address(at, names).map(|(r2, imm)| rri(number, 0, r2, imm)),
        (Form::Op, []) => Ok(rrr(number, 0, 0, 0)),
        _ => Err(wanted()),
    }
}

/// How an instruction is written.
pub fn written(opcode: Opcode) -> String {
    let operands = match opcode.form {
        Form::Rrr => " r1, r2, r3",
        Form::Rr => " r1, r2",
        Form::Rri => " r1, r2, imm",
        Form::Ra => " r1, r2(imm)",
        Form::Ar => " r2(imm), r1",
        Form::A => " r2(imm)",
        Form::Op => "",
    };
    format!("{}{operands}", opcode.name)
}

/// An address: a register with a number in brackets, a register alone, or a
/// number alone.
fn address(text: &str, names: &HashMap<String, Name>) -> Result<(u32, i64), Problem> {
    let (register, imm) = match text.split_once('(') {
        Some((register, imm)) => {
            let number = register_of(register.trim(), names);
            let imm = imm.trim_end().strip_suffix(')');
            match (number, imm) {
                (Some(number), Some(imm)) => (number, imm),
                _ => return Err(Problem::new(problem::OPERANDS, text)),
            }
        }
        None => match register_of(text, names) {
            Some(number) => (number, "0"),
            None => (0, text),
        },
    };
    Ok((register, fitting(imm, names, -(1 << 15), (1 << 15) - 1)?))
}

fn fitting(text: &str, names: &HashMap<String, Name>, least: i64, most: i64) -> Result<i64, Problem> {
    let value = sum(text, names)?;
    if value < least || value > most {
        return Err(Problem::new(problem::NO_FIT, format!("{} is outside {least}..{most}", text.trim())));
    }
    Ok(value)
}

/// Numbers and names with + and - between them.
fn sum(text: &str, names: &HashMap<String, Name>) -> Result<i64, Problem> {
    let mut total = 0;
    let mut rest = text.trim();
    let mut first = true;
    while first || !rest.is_empty() {
        let minus = rest.starts_with('-');
        if minus || (rest.starts_with('+') && !first) {
            rest = rest[1..].trim_start();
        } else if !first {
            return Err(Problem::new(problem::NO_NUMBER, text));
        }
        let end = rest.find(|c: char| !c.is_ascii_alphanumeric() && c != '_').unwrap_or(rest.len());
        let value = term(&rest[..end], names)?;
        total += if minus { -value } else { value };
        rest = rest[end..].trim_start();
        first = false;
    }
    Ok(total)
}

fn term(text: &str, names: &HashMap<String, Name>) -> Result<i64, Problem> {
    if is_name(text) {
        return match names.get(text) {
            Some(Name::Number(value)) => Ok(*value),
            _ => Err(Problem::new(problem::UNKNOWN_NAME, text)),
        };
    }
    let value = kit::args::number::<u128>(text).map_err(|_| Problem::new(problem::NO_NUMBER, text))?;
    let word = u32::try_from(value);
    word.map(i64::from).map_err(|_| Problem::new(problem::NO_FIT, format!("{text} is outside 0..4294967295")))
}

#[cfg(test)]
mod tests {
    use super::*;
    use kit::rng::Rng;
    use kit::words::{numbered, Told};

    fn words(text: &str) -> Vec<u32> {
        assemble("t.s", text).unwrap().words
    }

    fn problem(text: &str) -> String {
        assemble("t.s", text).unwrap_err().to_string()
    }

    /// Every word, told and assembled, is itself again.
    #[test]
    fn told_and_back() {
        let mut rng = Rng::new(9);
        for number in 0..64 {
            let used = numbered(number).map_or(0, |opcode| opcode.form.used());
            for turn in 0..4000 {
                let word = number << 26 | (rng.next() as u32 & if turn % 4 == 0 { 0x03ff_ffff } else { used });
                let text = Told(word).to_string();
                assert_eq!(words(&text), [word], "{text}");
                assert!(turn % 4 == 0 || numbered(number).is_none() || !text.starts_with('.'), "{text}");
            }
        }
    }

    #[test]
    fn the_papers_forms() {
        let text = "
            .reg MTX, R1        ; names of registers
            .reg COUNT, R9
            .equ modelview, 16  ; and of addresses
            LI MTX, modelview
        again: LI COUNT, COUNT(-1)
            ST MTX, COUNT
            ST MTX(4), COUNT
            LD R3, modelview + 1
            DOT R4, MTX, R2
            jnel again
            CALL over
            JMP R31(0)
        over: TREEPUT
            .word -1";
        let wanted = [
            rri(2, 1, 0, 16),
            rri(2, 9, 9, -1),
            rri(1, 9, 1, 0),
            rri(1, 9, 1, 4),
            rri(0, 3, 0, 17),
            rrr(32, 4, 1, 2),
            rri(23, 0, 0, 1),
            rri(19, 0, 0, 9),
            rri(18, 0, 31, 0),
            rrr(40, 0, 0, 0),
            u32::MAX,
        ];
        assert_eq!(words(text), wanted);
        assert_eq!(assemble("t.s", text).unwrap().lines[..3], [5, 6, 7]);
    }

    #[test]
    fn problems_with_their_places() {
        for (text, wanted) in [
            ("\nADD R1, R2", "112: the instruction has other operands: ADD r1, r2, r3 (t.s, line 2)"),
            ("ADD R1, R2, R32", "112: the instruction has other operands: ADD r1, r2, r3 (t.s, line 1)"),
            ("ADDX R1", "111: there is no such instruction: ADDX (t.s, line 1)"),
            ("LI R1, 32768", "113: the number does not fit: 32768 is outside -32768..32767 (t.s, line 1)"),
            ("LSLI R1, R2, 65536", "113: the number does not fit: 65536 is outside 0..65535 (t.s, line 1)"),
            ("ASRI R1, R2, -1", "113: the number does not fit: -1 is outside 0..65535 (t.s, line 1)"),
            (".word 4294967296", "113: the number does not fit: 4294967296 is outside 0..4294967295 (t.s, line 1)"),
            (
                ".word -2147483649",
                "113: the number does not fit: -2147483649 is outside -2147483648..4294967295 (t.s, line 1)",
            ),
            ("JMP nowhere", "114: the name is not known: nowhere (t.s, line 1)"),
            ("a: a: TREEPUT", "115: the name is taken: a (t.s, line 1)"),
            ("R1: TREEPUT", "115: the name is taken: R1 (t.s, line 1)"),
            ("9a: TREEPUT", "110: the line is not understood: 9a (t.s, line 1)"),
            (".reg X, 5", "112: the instruction has other operands: .reg X, 5 (t.s, line 1)"),
            ("LD R1, R2(4", "112: the instruction has other operands: R2(4 (t.s, line 1)"),
            ("LD R1, 4 4", "116: this is not a number: 4 4 (t.s, line 1)"),
            ("LD R1, ", "116: this is not a number (t.s, line 1)"),
        ] {
            assert_eq!(problem(text), wanted);
        }
    }
}
