//! What a main in C calls: the example, a player of records over the crate's safe interface, and a writer of saved states.

mod player;
mod rows;
mod writer;

#[path = "../../examples/catch_up/frame.rs"]
mod frame;
#[path = "../../examples/catch_up/join.rs"]
mod join;
#[path = "../../examples/catch_up/notice.rs"]
mod notice;
#[path = "../../examples/catch_up/rounds.rs"]
mod rounds;

use std::error::Error;
use std::ffi::{c_char, c_int, CStr};
use std::io::{stdin, stdout, BufWriter, Read, Write};

/// The status of a program; what went wrong is printed.
fn status(result: Result<(), Box<dyn Error>>) -> c_int {
    match result {
        Ok(()) => 0,
        Err(why) => {
            eprintln!("boundary: {why}");
            1
        }
    }
}

/// Plays the example.
#[no_mangle]
pub extern "C" fn boundary_catch_up() -> c_int {
    status(rounds::run(&mut stdout().lock()))
}

/// Plays the records on standard input, as the program `inspect`, `trace`, `states` or `why` does.
///
/// # Safety
///
/// `program` is a C string.
#[no_mangle]
pub unsafe extern "C" fn boundary_play(program: *const c_char) -> c_int {
    // SAFETY: the caller's word.
    let program = unsafe { CStr::from_ptr(program) }.to_bytes();
    let mut data = Vec::new();
    let mut out = BufWriter::new(stdout().lock());
    let played = stdin().read_to_end(&mut data).and_then(|_| player::play(program, &data, &mut out)).and_then(|()| out.flush());
    status(played.map_err(Into::into))
}

/// Writes states to a file until it is killed.
///
/// # Safety
///
/// `path` is a C string.
#[no_mangle]
pub unsafe extern "C" fn boundary_write(path: *const c_char) -> c_int {
    // SAFETY: the caller's word.
    let path = unsafe { CStr::from_ptr(path) };
    status(path.to_str().map_err(Into::into).and_then(|path| writer::write(path, &mut stdout().lock())))
}

/// Loads the state of a file.
///
/// # Safety
///
/// `path` is a C string.
#[no_mangle]
pub unsafe extern "C" fn boundary_load(path: *const c_char) -> c_int {
    // SAFETY: the caller's word.
    let path = unsafe { CStr::from_ptr(path) };
    status(path.to_str().map_err(Into::into).and_then(|path| writer::load(path, &mut stdout().lock())))
}

/// The number of the refusal at a place of the crate's list, or 0 past its end.
#[no_mangle]
pub extern "C" fn boundary_refusal(place: usize) -> u32 {
    pradulins::Refusal::NUMBERS.get(place).copied().unwrap_or(0)
}
