//! The proved engine, called through its C function. This file is the one place that knows the function's shape.

use crate::Reply;

extern "C" {
    fn whittermay_solve(
        book: *const u8,
        book_len: usize,
        budget: u32,
        wanted: u32,
        workspace: *mut u32,
        workspace_words: usize,
        out: *mut u8,
        out_len: usize,
        reply: *mut u32,
    );
}

pub fn solve(book: &[u8], budget: u32, wanted: u32, workspace: &mut [u32], out: &mut [u8]) -> Reply {
    let mut reply = [0; 6];
    // Safety: every pointer comes with the length of the slice behind it; the reply has the six words that the function writes.
    unsafe {
        whittermay_solve(
            book.as_ptr(),
            book.len(),
            budget,
            wanted,
            workspace.as_mut_ptr(),
            workspace.len(),
            out.as_mut_ptr(),
            out.len(),
            reply.as_mut_ptr(),
        );
    }
    reply
}
