//! Machine words: the opcodes, words put together, words told.

use std::fmt;

/// Which operands an instruction has, in the order in which they are written.
#[derive(Clone, Copy, Debug, PartialEq, Eq)]
pub enum Form {
    /// r1, r2, r3
    Rrr,
    /// r1, r2
    Rr,
    /// r1, r2, imm
    Rri,
    /// r1, r2(imm)
    Ra,
    /// r2(imm), r1
    Ar,
    /// r2(imm)
    A,
    /// none
    Op,
}

impl Form {
    /// The bits that words of this form use beside the opcode.
    pub const fn used(self) -> u32 {
        match self {
            Form::Rrr => 0x03ff_f800,
            Form::Rr => 0x03ff_0000,
            Form::Rri | Form::Ra | Form::Ar => 0x03ff_ffff,
            Form::A => 0x001f_ffff,
            Form::Op => 0,
        }
    }
}

/// An instruction: its opcode, its name, its operands.
#[derive(Clone, Copy, Debug, PartialEq, Eq)]
pub struct Opcode {
    pub number: u32,
    pub name: &'static str,
    pub form: Form,
}

const fn row(number: u32, name: &'static str, form: Form) -> Opcode {
    Opcode { number, name, form }
}

/// The machine's instructions, by number; `tools/opcodes` writes the list.
pub const OPCODES: &[Opcode] = &[
    row(0, "LD", Form::Ra),
    row(1, "ST", Form::Ar),
    row(2, "LI", Form::Ra),
    row(3, "ADD", Form::Rrr),
    row(4, "SUB", Form::Rrr),
    row(5, "MUL", Form::Rrr),
    row(6, "MULF", Form::Rrr),
    row(7, "RECP", Form::Rr),
    row(8, "AND", Form::Rrr),
    row(9, "OR", Form::Rrr),
    row(10, "XOR", Form::Rrr),
    row(11, "NOT", Form::Rr),
    row(12, "LSL", Form::Rrr),
    row(13, "LSR", Form::Rrr),
    row(14, "ASR", Form::Rrr),
    row(15, "LSLI", Form::Rri),
    row(16, "LSRI", Form::Rri),
    row(17, "ASRI", Form::Rri),
    row(18, "JMP", Form::A),
    row(19, "CALL", Form::A),
    row(20, "JEQ", Form::A),
    row(21, "JEQL", Form::A),
    row(22, "JNE", Form::A),
    row(23, "JNEL", Form::A),
    row(24, "JLT", Form::A),
    row(25, "JLTL", Form::A),
    row(26, "JLE", Form::A),
    row(27, "JLEL", Form::A),
    row(28, "JGT", Form::A),
    row(29, "JGTL", Form::A),
    row(30, "JGE", Form::A),
    row(31, "JGEL", Form::A),
    row(32, "DOT", Form::Rrr),
    row(33, "READ", Form::Rr),
    row(34, "WRITE", Form::Rr),
    row(35, "SCRSET", Form::Rri),
    row(36, "CLS", Form::Rr),
    row(37, "TREESET", Form::Rrr),
    row(38, "TREEIN", Form::Rr),
    row(39, "TREEVAL", Form::Rri),
    row(40, "TREEPUT", Form::Op),
];

/// The instruction of this name, in capitals.
pub fn named(name: &str) -> Option<Opcode> {
    OPCODES.iter().copied().find(|opcode| opcode.name == name)
}

/// The instruction of this number.
pub fn numbered(number: u32) -> Option<Opcode> {
    OPCODES.iter().copied().find(|opcode| opcode.number == number)
}

/// A word of three registers.
pub fn rrr(opcode: u32, r1: u32, r2: u32, r3: u32) -> u32 {
    opcode << 26 | (r1 & 31) << 21 | (r2 & 31) << 16 | (r3 & 31) << 11
}

/// A word of two registers and the low 16 bits of a number.
pub fn rri(opcode: u32, r1: u32, r2: u32, imm: i64) -> u32 {
    opcode << 26 | (r1 & 31) << 21 | (r2 & 31) << 16 | (imm & 0xffff) as u32
}

/// A jump to a place of the program.
pub fn to(opcode: u32, place: usize) -> u32 {
    rri(opcode, 0, 0, place as i64)
}

/// A step that changes nothing but the place: a jump to the next one.
pub fn idle(place: usize) -> u32 {
    to(named("JMP").expect("JMP is in the table").number, place + 1)
}

/// The four fields and imm of a word.
pub fn fields(word: u32) -> (u32, usize, usize, usize, u32) {
    let register = |bit: u32| (word >> bit & 31) as usize;
    (word >> 26, register(21), register(16), register(11), word & 0xffff)
}

/// A word in the assembler's form, which assembles to this word again: the
/// instruction, or `.word` where it is none or uses bits that the instruction
/// ignores.
#[derive(Clone, Copy)]
pub struct Told(pub u32);

impl fmt::Display for Told {
    fn fmt(&self, f: &mut fmt::Formatter<'_>) -> fmt::Result {
        let (number, r1, r2, r3, imm) = fields(self.0);
        let signed = imm as u16 as i16;
        let opcode = match numbered(number) {
            Some(opcode) if self.0 & 0x03ff_ffff & !opcode.form.used() == 0 => opcode,
            _ => return write!(f, ".word 0x{:08x}", self.0),
        };
        let name = opcode.name;
        match opcode.form {
            Form::Rrr => write!(f, "{name} R{r1}, R{r2}, R{r3}"),
            Form::Rr => write!(f, "{name} R{r1}, R{r2}"),
            Form::Rri => write!(f, "{name} R{r1}, R{r2}, {imm}"),
            Form::Ra => write!(f, "{name} R{r1}, R{r2}({signed})"),
            Form::Ar => write!(f, "{name} R{r2}({signed}), R{r1}"),
            Form::A => write!(f, "{name} R{r2}({signed})"),
            Form::Op => f.write_str(name),
        }
    }
}

/// A program in the making, with places that are named before they are known.
#[derive(Default)]
pub struct Program {
    pub words: Vec<u32>,
    open: Vec<(usize, usize)>,
    marks: Vec<Option<usize>>,
}

impl Program {
    pub fn here(&self) -> usize {
        self.words.len()
    }

    pub fn add(&mut self, word: u32) {
        self.words.push(word);
    }

    pub fn rrr(&mut self, opcode: u32, r1: u32, r2: u32, r3: u32) {
        self.add(rrr(opcode, r1, r2, r3));
    }

    pub fn rri(&mut self, opcode: u32, r1: u32, r2: u32, imm: i64) {
        self.add(rri(opcode, r1, r2, imm));
    }

    /// A name for a place still to come.
    pub fn mark(&mut self) -> usize {
        self.marks.push(None);
        self.marks.len() - 1
    }

    /// The mark is here.
    pub fn put(&mut self, mark: usize) {
        self.marks[mark] = Some(self.here());
    }

    /// A jump or call to a mark.
    pub fn jump(&mut self, opcode: u32, mark: usize) {
        debug_assert!(numbered(opcode).map_or(false, |opcode| opcode.form == Form::A));
        self.open.push((self.here(), mark));
        self.add(rri(opcode, 0, 0, 0));
    }

    /// The words, all marks filled in. A mark never put is the program's end.
    pub fn done(mut self) -> Vec<u32> {
        let end = self.here();
        for &(at, mark) in &self.open {
            self.words[at] |= self.marks[mark].unwrap_or(end) as u32 & 0xffff;
        }
        self.words
    }
}

#[cfg(test)]
mod tests {
    use super::*;

    #[test]
    fn found_by_name_and_by_number() {
        for opcode in OPCODES {
            assert_eq!(named(opcode.name), Some(*opcode));
            assert_eq!(numbered(opcode.number), Some(*opcode));
        }
        assert_eq!((named("HALT"), numbered(63)), (None, None));
    }

    #[test]
    fn told() {
        for (word, text) in [
            (0x0820_0080, "LI R1, R0(128)"),
            (0x0840_ffff, "LI R2, R0(-1)"),
            (0x8c01_0204, "SCRSET R0, R1, 516"),
            (0x9002_0000, "CLS R0, R2"),
            (0x9002_0001, ".word 0x90020001"),
            (0x05e3_8000, "ST R3(-32768), R15"),
            (0x4bff_0000, ".word 0x4bff0000"),
            (0x481f_0000, "JMP R31(0)"),
            (0xa000_0000, "TREEPUT"),
            (0xa400_0000, ".word 0xa4000000"),
        ] {
            assert_eq!(Told(word).to_string(), text);
        }
    }

    #[test]
    fn marks() {
        let mut program = Program::default();
        let (back, end) = (program.mark(), program.mark());
        program.add(7);
        program.put(back);
        program.jump(18, end);
        program.jump(19, back);
        assert_eq!(program.done(), [7, to(18, 3), to(19, 1)]);
        assert_eq!(fields(rrr(32, 1, 2, 3)), (32, 1, 2, 3, 3 << 11));
    }
}
