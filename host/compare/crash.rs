//! A crash ends the program: this says on which input.
use std::cell::Cell;

thread_local! {
    static AT: Cell<Option<(&'static str, &'static str, usize)>> = const { Cell::new(None) };
}

/// What this thread looks at from now on: the words that one input is asked for by, its family and its number.
pub fn now_at(command: &'static str, family: &'static str, index: usize) {
    AT.set(Some((command, family, index)));
}

// The C library's.
extern "C" {
    fn signal(number: i32, handler: extern "C" fn(i32)) -> usize;
    fn _exit(code: i32) -> !;
}

/// An illegal instruction, an abort, a bus error, an arithmetic error, a place in memory that is not there.
const CRASHES: [i32; 5] = [4, 6, 7, 8, 11];

pub fn watch() {
    // SAFETY: the handler has the type that `signal` asks for, and never returns.
    CRASHES.iter().for_each(|number| unsafe {
        signal(*number, crashed);
    });
}

/// Little is safe in a handler, but the program is at its end.
extern "C" fn crashed(number: i32) {
    match AT.get() {
        Some((command, family, index)) => {
            println!("a crash, signal {number}: {command} --input {family} {index} with the seed above");
        }
        None => println!("\na crash, signal {number}"),
    }
    // SAFETY: it ends the program, without waiting for other threads.
    unsafe { _exit(1) }
}
