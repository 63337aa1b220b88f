//! Progress for whoever watches: on a terminal, and nowhere else. And an end
//! when nobody reads on.

use std::io::Write;

// The C library's, which every Rust program links.
extern "C" {
    fn isatty(descriptor: i32) -> i32;
    fn signal(number: i32, handler: usize) -> usize;
}

/// Lets a pipe that nobody reads end the program, as it ends others; Rust's own
/// way is to panic at the next line printed.
pub fn end_with_the_pipe() {
    const SIGPIPE: i32 = 13;
    const DEFAULT: usize = 0;
    // SAFETY: no handler is set, only the one that programs start with.
    unsafe { signal(SIGPIPE, DEFAULT) };
}

pub struct Progress {
    shown: bool,
    said: bool,
}

impl Progress {
    /// Shown where standard error is a terminal.
    pub fn new() -> Progress {
        // SAFETY: it looks at a descriptor and touches no memory.
        Progress { shown: unsafe { isatty(2) } == 1, said: false }
    }

    pub fn shown(&self) -> bool {
        self.shown
    }

    /// Replaces what was said last.
    pub fn say(&mut self, words: &str) {
        if self.shown {
            eprint!("\r\x1b[K{words}");
            let _ = std::io::stderr().flush();
            self.said = true;
        }
    }
}

impl Drop for Progress {
    fn drop(&mut self) {
        if self.said {
            eprint!("\r\x1b[K");
        }
    }
}
