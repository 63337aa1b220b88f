//! The calls as C has them: the number stands in the answer, 0 where nothing
//! was refused. For whoever wants every field of every answer; the functions of
//! the crate's root are made of these.

use crate::{Plane, Screen, State, Triangle, Values, Vertices};

/// The answer to a triangle: its number, pixels covered, pixels written.
#[repr(C)]
#[derive(Clone, Copy, Debug, PartialEq, Eq)]
pub struct Drawn {
    pub number: u32,
    pub covered: u32,
    pub written: u32,
}

/// The answer to three vertices and a value at each: its number, and the plane
/// through the three. Refused, the plane is of zeros.
#[repr(C)]
#[derive(Clone, Copy, Debug, PartialEq, Eq)]
pub struct Through {
    pub number: u32,
    pub plane: Plane,
}

/// The answer to a panel: its number, and how many pixels it drew.
#[repr(C)]
#[derive(Clone, Copy, Debug, PartialEq, Eq)]
pub struct Panelled {
    pub number: u32,
    pub pixels: u32,
}

/// The answer to a row or a depth row, in places: the row's own bytes are
/// `ram[start..start + length]`. Refused, both are 0.
#[repr(C)]
#[derive(Clone, Copy, Debug, PartialEq, Eq)]
pub struct RowPart {
    pub number: u32,
    pub start: u64,
    pub length: u64,
}

/// The answer to a run: its number, the steps carried out, and the state in
/// which it stopped; refused, the state as given.
#[repr(C)]
#[derive(Clone, Copy, Debug, PartialEq, Eq)]
pub struct Ran {
    pub number: u32,
    pub steps: u64,
    pub state: State,
}

/// The answer to a step: its number, 1 if it was carried out and else 0, and the
/// state after it; refused, the state as given.
#[repr(C)]
#[derive(Clone, Copy, Debug, PartialEq, Eq)]
pub struct Stepped {
    pub number: u32,
    pub carried_out: u32,
    pub state: State,
}

mod library {
    use super::{Drawn, Panelled, Ran, RowPart, Screen, State, Stepped, Through, Triangle, Values, Vertices};

    #[link(name = "merikohin", kind = "static")]
    extern "C" {
        pub fn merikohin_clear(ram: *mut u8, ram_len: usize, s: Screen, colour: u16, depth: u16) -> u32;
        pub fn merikohin_draw(ram: *mut u8, ram_len: usize, s: Screen, t: Triangle) -> Drawn;
        pub fn merikohin_plane_through(v: Vertices, r: Values) -> Through;
        pub fn merikohin_panel(
            ram: *mut u8,
            ram_len: usize,
            s: Screen,
            samples: *const i16,
            samples_len: usize,
            per_column: i32,
            offset: i32,
            colour: u16,
        ) -> Panelled;
        pub fn merikohin_row_check(ram: *const u8, ram_len: usize, s: Screen, row: u32) -> u32;
        pub fn merikohin_row(ram: *const u8, ram_len: usize, s: Screen, row: u32) -> RowPart;
        pub fn merikohin_depth_row(ram: *const u8, ram_len: usize, s: Screen, row: u32) -> RowPart;
        pub fn merikohin_fresh() -> State;
        pub fn merikohin_run(
            program: *const u32,
            program_len: usize,
            memory: *mut u32,
            memory_len: usize,
            ram: *mut u8,
            ram_len: usize,
            state: State,
            budget: u64,
        ) -> Ran;
        pub fn merikohin_step(
            program: *const u32,
            program_len: usize,
            memory: *mut u32,
            memory_len: usize,
            ram: *mut u8,
            ram_len: usize,
            state: State,
        ) -> Stepped;
    }
}

/// `merikohin_clear`: 0, 3 or 5.
#[must_use]
pub fn clear(ram: &mut [u8], screen: Screen, colour: u16, depth: u16) -> u32 {
    // SAFETY: the slice is lent whole, for the length of the call.
    unsafe { library::merikohin_clear(ram.as_mut_ptr(), ram.len(), screen, colour, depth) }
}

/// `merikohin_draw`: 0, 3, 5, 6 or 7.
#[must_use]
pub fn draw(ram: &mut [u8], screen: Screen, triangle: Triangle) -> Drawn {
    // SAFETY: the slice is lent whole, for the length of the call.
    unsafe { library::merikohin_draw(ram.as_mut_ptr(), ram.len(), screen, triangle) }
}

/// `merikohin_plane_through`: 0, 6 or 9.
#[must_use]
pub fn plane_through(vertices: Vertices, values: Values) -> Through {
    // SAFETY: nothing is lent.
    unsafe { library::merikohin_plane_through(vertices, values) }
}

/// `merikohin_panel`: 0, 3, 5 or 10.
#[must_use]
pub fn panel(ram: &mut [u8], screen: Screen, samples: &[i16], per_column: i32, offset: i32, colour: u16) -> Panelled {
    // SAFETY: the two slices are lent whole, for the length of the call, and do
    // not overlap; the samples are only read.
    unsafe {
        library::merikohin_panel(
            ram.as_mut_ptr(),
            ram.len(),
            screen,
            samples.as_ptr(),
            samples.len(),
            per_column,
            offset,
            colour,
        )
    }
}

/// `merikohin_row_check`: 0, 3, 5 or 8.
#[must_use]
pub fn row_check(ram: &[u8], screen: Screen, row: u32) -> u32 {
    // SAFETY: the slice is lent whole, for the length of the call.
    unsafe { library::merikohin_row_check(ram.as_ptr(), ram.len(), screen, row) }
}

/// `merikohin_row`: 0, 3, 5 or 8.
#[must_use]
pub fn row(ram: &[u8], screen: Screen, row: u32) -> RowPart {
    // SAFETY: the slice is lent whole, for the length of the call.
    unsafe { library::merikohin_row(ram.as_ptr(), ram.len(), screen, row) }
}

/// `merikohin_depth_row`: 0, 3, 5 or 8.
#[must_use]
pub fn depth_row(ram: &[u8], screen: Screen, row: u32) -> RowPart {
    // SAFETY: the slice is lent whole, for the length of the call.
    unsafe { library::merikohin_depth_row(ram.as_ptr(), ram.len(), screen, row) }
}

/// `merikohin_fresh`.
#[must_use]
pub fn fresh() -> State {
    // SAFETY: nothing is lent.
    unsafe { library::merikohin_fresh() }
}

/// `merikohin_run`: 0, 1, 2, 3 or 4.
#[must_use]
pub fn run(program: &[u32], memory: &mut [u32], ram: &mut [u8], state: State, budget: u64) -> Ran {
    // SAFETY: the three slices are lent whole, for the length of the call, and
    // do not overlap; the program is only read.
    unsafe {
        library::merikohin_run(
            program.as_ptr(),
            program.len(),
            memory.as_mut_ptr(),
            memory.len(),
            ram.as_mut_ptr(),
            ram.len(),
            state,
            budget,
        )
    }
}

/// `merikohin_step`: 0, 1, 2, 3 or 4.
#[must_use]
pub fn step(program: &[u32], memory: &mut [u32], ram: &mut [u8], state: State) -> Stepped {
    // SAFETY: the three slices are lent whole, for the length of the call, and
    // do not overlap; the program is only read.
    unsafe {
        library::merikohin_step(
            program.as_ptr(),
            program.len(),
            memory.as_mut_ptr(),
            memory.len(),
            ram.as_mut_ptr(),
            ram.len(),
            state,
        )
    }
}
