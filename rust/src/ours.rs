//! The proved functions, as declared for other languages, behind safe functions. A slice passes as a pointer and a length.

extern "C" {
    fn probe_word(kind: u8, id: *const u8, id_len: usize, value: *mut u64) -> u64;
    fn probe_mix(n: u64) -> u64;
    fn probe_unmix(n: u64) -> u64;
    fn probe_fnv(bytes: *const u8, len: usize) -> u64;
    fn probe_add(part: *mut u64, len: usize, k: u64, plan: u64) -> u64;
    fn probe_withdraw(part: *mut u64, len: usize, k: u64) -> u64;
    fn probe_row(part: *const u64, len: usize, k: u64) -> u64;
    fn probe_matrix(part: *const u64, len: usize, i: usize) -> u64;
    fn probe_lines(input: *const u8, input_len: usize, out: *mut u8, out_len: usize) -> usize;
    fn probe_fill(
        t: *mut u64,
        len: usize,
        b1: u64,
        b2: u64,
        words: *const u64,
        words_len: usize,
    ) -> u64;
    fn limgoshi_open(t: *mut u64, len: usize, b1: u64, b2: u64, value: *mut u64) -> u64;
    fn limgoshi_query(
        t: *const u64,
        len: usize,
        kind: u8,
        id: *const u8,
        id_len: usize,
        value: *mut u64,
    ) -> u64;
    fn limgoshi_change(
        t: *mut u64,
        len: usize,
        kind: u8,
        id: *const u8,
        id_len: usize,
        plan: u8,
        value: *mut u64,
    ) -> u64;
    fn limgoshi_withdraw(
        t: *mut u64,
        len: usize,
        kind: u8,
        id: *const u8,
        id_len: usize,
        value: *mut u64,
    ) -> u64;
    fn limgoshi_add(
        t: *mut u64,
        len: usize,
        kind: u8,
        id: *const u8,
        id_len: usize,
        plan: u8,
        value: *mut u64,
    ) -> u64;
    fn limgoshi_plan_total(t: *const u64, len: usize, plan: u8, value: *mut u64) -> u64;
    fn limgoshi_write_plane(
        t: *const u64,
        len: usize,
        out: *mut u8,
        out_len: usize,
        value: *mut u64,
    ) -> u64;
    fn limgoshi_plane_lookup(
        kind: u8,
        id: *const u8,
        id_len: usize,
        plane: *const u8,
        plane_len: usize,
        value: *mut u64,
    ) -> u64;
    fn limgoshi_make_patch(
        old_plane: *const u8,
        old_len: usize,
        new_plane: *const u8,
        new_len: usize,
        out: *mut u8,
        out_len: usize,
        value: *mut u64,
    ) -> u64;
    fn limgoshi_apply_patch(
        old_plane: *const u8,
        old_len: usize,
        patch: *const u8,
        patch_len: usize,
        out: *mut u8,
        out_len: usize,
        value: *mut u64,
    ) -> u64;
}

use crate::answer::Answer;

/// The word of an identifier as an accepted answer, or the cause.
pub fn word(kind: u8, id: &[u8]) -> Answer {
    answered(|value| unsafe { probe_word(kind, id.as_ptr(), id.len(), value) })
}

pub fn mix(n: u64) -> u64 {
    unsafe { probe_mix(n) }
}

pub fn unmix(n: u64) -> u64 {
    unsafe { probe_unmix(n) }
}

pub fn fnv(bytes: &[u8]) -> u64 {
    unsafe { probe_fnv(bytes.as_ptr(), bytes.len()) }
}

/// An add to the bucket of these numbers: 1 done, 0 the vector depends, 2 not a bucket.
pub fn bucket_add(part: &mut [u64], k: u64, plan: u8) -> u64 {
    unsafe { probe_add(part.as_mut_ptr(), part.len(), k, u64::from(plan)) }
}

/// A withdrawal: 1 done, 0 not live, 2 not a bucket.
pub fn bucket_withdraw(part: &mut [u64], k: u64) -> u64 {
    unsafe { probe_withdraw(part.as_mut_ptr(), part.len(), k) }
}

/// The row of a live vector, 64 if it is not live, 65 not a bucket.
pub fn bucket_row(part: &[u64], k: u64) -> u64 {
    unsafe { probe_row(part.as_ptr(), part.len(), k) }
}

/// Row i of K, 0 if the columns have no such matrix.
pub fn bucket_matrix(part: &[u64], i: usize) -> u64 {
    unsafe { probe_matrix(part.as_ptr(), part.len(), i) }
}

/// Opens a table and adds the words, each with the plan word mod 128, until the first refusal, with no test of the table: how many
/// were accepted, 0 if the opening is refused.
pub fn fill(t: &mut [u64], b1: u64, b2: u64, words: &[u64]) -> u64 {
    unsafe { probe_fill(t.as_mut_ptr(), t.len(), b1, b2, words.as_ptr(), words.len()) }
}

/// The numbers of a table are 64-bit; each call answers the cause and the number that goes with it.
fn answered(run: impl FnOnce(*mut u64) -> u64) -> Answer {
    let mut value = 0;
    let cause = run(&mut value);
    Answer { cause, value }
}

pub fn open(t: &mut [u64], b1: u64, b2: u64) -> Answer {
    answered(|value| unsafe { limgoshi_open(t.as_mut_ptr(), t.len(), b1, b2, value) })
}

pub fn query(t: &[u64], kind: u8, id: &[u8]) -> Answer {
    answered(|value| unsafe {
        limgoshi_query(t.as_ptr(), t.len(), kind, id.as_ptr(), id.len(), value)
    })
}

pub fn change(t: &mut [u64], kind: u8, id: &[u8], plan: u8) -> Answer {
    answered(|value| unsafe {
        limgoshi_change(
            t.as_mut_ptr(),
            t.len(),
            kind,
            id.as_ptr(),
            id.len(),
            plan,
            value,
        )
    })
}

pub fn withdraw(t: &mut [u64], kind: u8, id: &[u8]) -> Answer {
    answered(|value| unsafe {
        limgoshi_withdraw(t.as_mut_ptr(), t.len(), kind, id.as_ptr(), id.len(), value)
    })
}

pub fn add(t: &mut [u64], kind: u8, id: &[u8], plan: u8) -> Answer {
    answered(|value| unsafe {
        limgoshi_add(
            t.as_mut_ptr(),
            t.len(),
            kind,
            id.as_ptr(),
            id.len(),
            plan,
            value,
        )
    })
}

pub fn plan_total(t: &[u64], plan: u8) -> Answer {
    answered(|value| unsafe { limgoshi_plan_total(t.as_ptr(), t.len(), plan, value) })
}

pub fn lookup(kind: u8, id: &[u8], plane: &[u8]) -> Answer {
    answered(|value| unsafe {
        limgoshi_plane_lookup(
            kind,
            id.as_ptr(),
            id.len(),
            plane.as_ptr(),
            plane.len(),
            value,
        )
    })
}

pub fn write_plane(t: &[u64], out: &mut [u8]) -> Answer {
    answered(|value| unsafe {
        limgoshi_write_plane(t.as_ptr(), t.len(), out.as_mut_ptr(), out.len(), value)
    })
}

pub fn make_patch(old: &[u8], new: &[u8], out: &mut [u8]) -> Answer {
    answered(|value| unsafe {
        limgoshi_make_patch(
            old.as_ptr(),
            old.len(),
            new.as_ptr(),
            new.len(),
            out.as_mut_ptr(),
            out.len(),
            value,
        )
    })
}

pub fn apply_patch(old: &[u8], patch: &[u8], out: &mut [u8]) -> Answer {
    answered(|value| unsafe {
        limgoshi_apply_patch(
            old.as_ptr(),
            old.len(),
            patch.as_ptr(),
            patch.len(),
            out.as_mut_ptr(),
            out.len(),
            value,
        )
    })
}

/// What the line program prints for an input: as much as fits is written to `out`; the length of the whole is returned.
pub fn lines_into(input: &[u8], out: &mut [u8]) -> usize {
    unsafe { probe_lines(input.as_ptr(), input.len(), out.as_mut_ptr(), out.len()) }
}

/// What the line program prints for an input.
pub fn lines(input: &[u8]) -> Vec<u8> {
    // At most 24 bytes for each byte that counts.
    let mut out = vec![0; 24 * input.len().min(1 << 16)];
    let length = lines_into(input, &mut out);
    out.truncate(length);
    out
}
