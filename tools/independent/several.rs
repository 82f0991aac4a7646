//! K10's "more than 16,777,216 elements": a label of so many, and of one more. The list is one small piece of memory, seen again and again, so that it takes no 2 GB.

use crate::held::{Case, Held};
use crate::raw::{Element, Written};
use crate::reading::LIMIT;
use crate::writing::write_label;
use std::io::Write;
use std::os::fd::AsRawFd;

extern "C" {
    fn mmap(at: *mut u8, len: usize, protection: i32, flags: i32, file: i32, from: i64) -> *mut u8;
    fn munmap(at: *mut u8, len: usize) -> i32;
}

// As Linux on x86-64 has them.
const READ: i32 = 1;
const SHARED: i32 = 1;
const PRIVATE: i32 = 2;
const FIXED: i32 = 0x10;
const ANONYMOUS: i32 = 0x20;
const NO_RESERVE: i32 = 0x4000;

/// Elements of the piece: its bytes are whole pages.
const PIECE: usize = 32_768;

/// A list of n elements, those of the piece in turn.
struct List {
    at: *mut u8,
    bytes: usize,
}

impl List {
    fn new(piece: &[Element], pieces: usize) -> std::io::Result<List> {
        let path = std::env::current_exe()?.with_extension(format!("{:?}.list", std::thread::current().id()));
        let mut file = std::fs::File::options().read(true).write(true).create(true).truncate(true).open(&path)?;
        // Safe: elements are plain bytes.
        let bytes = unsafe { std::slice::from_raw_parts(piece.as_ptr() as *const u8, std::mem::size_of_val(piece)) };
        file.write_all(bytes)?;
        std::fs::remove_file(&path)?;
        let failed = |at: *mut u8| at as isize == -1;
        // Safe: new memory, and then the file in its place, piece by piece.
        unsafe {
            let list = List { at: mmap(std::ptr::null_mut(), bytes.len() * pieces, 0, PRIVATE | ANONYMOUS | NO_RESERVE, -1, 0), bytes: bytes.len() * pieces };
            for k in 0..pieces {
                if failed(list.at) || failed(mmap(list.at.add(k * bytes.len()), bytes.len(), READ, SHARED | FIXED, file.as_raw_fd(), 0)) {
                    return Err(std::io::Error::last_os_error());
                }
            }
            Ok(list)
        }
    }
}

impl Drop for List {
    fn drop(&mut self) {
        unsafe { munmap(self.at, self.bytes) };
    }
}

/// One too many, 23 with their number; then as many as there may be, 15 with the length.
pub fn held(case: &mut Case) -> Held {
    let pair = [Element { kind: 2, x: 1, y: 22, width: 3, height: 4, thickness: 3, ..Element::default() }, Element { kind: 2, x: -5, width: 7, thickness: 9, ..Element::default() }];
    let lines = ["LO1,22,3,4\n", "X-5,0,9,2,0\n"].map(str::len);
    let piece: Vec<Element> = pair.into_iter().cycle().take(PIECE).collect();
    let list = List::new(&piece, LIMIT / PIECE + 1).map_err(|error| format!("no memory for the list: {error}"))?;
    for (n, due, name) in [
        (LIMIT + 1, Written { number: 23, place: LIMIT + 1 }, "23, 16,777,217 elements"),
        (LIMIT, Written { number: 15, place: 2 + LIMIT / 2 * (lines[0] + lines[1]) + "P1,2\n".len() }, "16,777,216 elements"),
    ] {
        // Safe: so many and more are there.
        let elements = unsafe { std::slice::from_raw_parts(list.at as *const Element, n) };
        let got = case.lent.call(b"", 40, |input, out: &mut [u8]| write_label(input, elements, (1, 2), out));
        case.tally.answer(got.number);
        case.tally.branch_if(true, name);
        case.lent.kept_but::<u8>(0, b"")?;
        if got != due {
            return Err(format!("{n} elements: {got:?} given, {due:?} expected"));
        }
    }
    Ok(())
}
