//! Calls the library from Rust, for tests/library: prints the status and the canonical bytes of a file, and then the
//! status and the text, each with as much room as the call says that it needs.
use std::os::raw::c_uint;

type Answering = unsafe extern "C" fn(*const u8, usize, *mut u8, usize, *mut usize) -> c_uint;

extern "C" {
    fn wcanon_normalise(input: *const u8, length: usize, out: *mut u8, room: usize, needed: *mut usize) -> c_uint;
    fn wcanon_to_text(input: *const u8, length: usize, out: *mut u8, room: usize, needed: *mut usize) -> c_uint;
}

fn answer(call: Answering, input: &[u8]) -> (c_uint, Vec<u8>) {
    let mut needed = 0usize;
    let mut out = Vec::new();
    let mut status = unsafe { call(input.as_ptr(), input.len(), out.as_mut_ptr(), 0, &mut needed) };
    if status == 3 {
        out = vec![0u8; needed];
        status = unsafe { call(input.as_ptr(), input.len(), out.as_mut_ptr(), out.len(), &mut needed) };
    }
    (status, out)
}

fn main() {
    let path = std::env::args().nth(1).unwrap();
    let input = std::fs::read(path).unwrap();
    for call in [wcanon_normalise as Answering, wcanon_to_text as Answering] {
        let (status, out) = answer(call, &input);
        let digits: String = out.iter().map(|b| format!("{b:02x}")).collect();
        println!("{status} {digits}");
    }
}
