//! The proved library through its C interface, as include/deskheron.h declares it.

use crate::plain::Asked;

extern "C" {
    fn deskheron_check(table: *const u8, table_len: usize, nodes: *mut u32) -> u32;
    fn deskheron_reach(
        table: *const u8,
        table_len: usize,
        start_ends: *mut u8,
        start_labels: *mut u64,
        reached: *mut u64,
        rounds: *mut u32,
    ) -> u32;
    fn deskheron_trim(
        table: *const u8,
        table_len: usize,
        out: *mut u8,
        out_len: usize,
        nodes: *mut u32,
        bytes: *mut usize,
        thousandths: *mut u32,
        remainder: *mut u32,
    ) -> u32;
    fn deskheron_list(
        table: *const u8,
        table_len: usize,
        assumed: u32,
        mark: u32,
        labels: u64,
        o: *mut u8,
        o_len: usize,
        k: *mut u8,
        k_len: usize,
        l: *mut u8,
        l_len: usize,
        count: *mut u32,
    ) -> u32;
    fn deskheron_step(
        table: *const u8,
        table_len: usize,
        provided: u32,
        mark: u32,
        labels: u64,
        answer: *mut u32,
        assumed: *mut u32,
        emitted: *mut u32,
        code: *mut u32,
        reached: *mut u64,
    ) -> u32;
    fn deskheron_read_text(
        text: *const u8,
        text_len: usize,
        out: *mut u8,
        out_len: usize,
        bytes: *mut usize,
    ) -> u32;
    fn deskheron_write_text(
        table: *const u8,
        table_len: usize,
        out: *mut u8,
        out_len: usize,
        bytes: *mut usize,
    ) -> u32;
}

/// A length of 0 may come with any pointer, so it comes with the worst.
fn pointer(lent: &[u8]) -> *const u8 {
    if lent.is_empty() {
        return std::ptr::null();
    }
    lent.as_ptr()
}

fn pointer_mut(lent: &mut [u8]) -> *mut u8 {
    if lent.is_empty() {
        return std::ptr::null_mut();
    }
    lent.as_mut_ptr()
}

pub fn check(table: &[u8], nodes: &mut u32) -> u32 {
    unsafe { deskheron_check(pointer(table), table.len(), nodes) }
}

pub fn reach(
    table: &[u8],
    start_ends: &mut u8,
    start_labels: &mut u64,
    reached: &mut u64,
    rounds: &mut u32,
) -> u32 {
    let (bytes, len) = (pointer(table), table.len());
    unsafe { deskheron_reach(bytes, len, start_ends, start_labels, reached, rounds) }
}

/// `numbers` are the cells for the nodes, the thousandths and the remainder.
pub fn trim(table: &[u8], out: &mut [u8], numbers: [&mut u32; 3], bytes: &mut usize) -> u32 {
    let [nodes, thousandths, remainder] = numbers;
    let (out, out_len) = (pointer_mut(out), out.len());
    let (table, len) = (pointer(table), table.len());
    unsafe { deskheron_trim(table, len, out, out_len, nodes, bytes, thousandths, remainder) }
}

pub fn list(table: &[u8], asked: Asked, lent: [&mut [u8]; 3], count: &mut u32) -> u32 {
    let Asked { signals, mark, labels } = asked;
    let [o, k, l] = lent;
    let [o_len, k_len, l_len] = [o.len(), k.len(), l.len()];
    let [o, k, l] = [o, k, l].map(pointer_mut);
    let (bytes, len) = (pointer(table), table.len());
    unsafe {
        deskheron_list(bytes, len, signals, mark, labels, o, o_len, k, k_len, l, l_len, count)
    }
}

/// `numbers` are the cells for the answer, E, O and k.
pub fn step(table: &[u8], asked: Asked, numbers: [&mut u32; 4], reached: &mut u64) -> u32 {
    let Asked { signals, mark, labels } = asked;
    let [answer, e, o, k] = numbers;
    let (bytes, len) = (pointer(table), table.len());
    unsafe { deskheron_step(bytes, len, signals, mark, labels, answer, e, o, k, reached) }
}

pub fn read_text(text: &[u8], out: &mut [u8], bytes: &mut usize) -> u32 {
    let (out, out_len) = (pointer_mut(out), out.len());
    unsafe { deskheron_read_text(pointer(text), text.len(), out, out_len, bytes) }
}

pub fn write_text(table: &[u8], out: &mut [u8], bytes: &mut usize) -> u32 {
    let (out, out_len) = (pointer_mut(out), out.len());
    unsafe { deskheron_write_text(pointer(table), table.len(), out, out_len, bytes) }
}
