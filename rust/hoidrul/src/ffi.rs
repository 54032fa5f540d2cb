//! The C boundary, as include/hoidrul.h declares it. All unsafe code is here.

extern "C" {
    fn hoidrul_vet(file: *const u8, len: usize, section: usize) -> u64;
    fn hoidrul_open(file: *const u8, len: usize, section: usize) -> u64;
    fn hoidrul_judge(file: *const u8, len: usize, set: u16, work: *mut u16, words: usize) -> u64;
    fn hoidrul_judge_kinds(
        kinds: *const u8,
        count: usize,
        file: *const u8,
        len: usize,
        set: u16,
        work: *mut u16,
        words: usize,
    ) -> u64;
    fn hoidrul_classes(file: *const u8, len: usize, out: *mut u8, room: usize) -> u64;
    fn hoidrul_merge(
        file: *const u8,
        len: usize,
        s: usize,
        t: usize,
        out: *mut u8,
        room: usize,
    ) -> u64;
    fn hoidrul_rewrite(
        file: *const u8,
        len: usize,
        law: usize,
        node: usize,
        out: *mut u8,
        room: usize,
    ) -> u64;
    fn hoidrul_regular(
        file: *const u8,
        len: usize,
        work: *mut u8,
        bytes: usize,
        out: *mut u8,
        room: usize,
    ) -> u64;
}

pub fn vet(file: &[u8], section: usize) -> u64 {
    // SAFETY: the function takes any bytes and any number; it only reads, and only the `len`
    // bytes of the slice, which is borrowed until it returns.
    unsafe { hoidrul_vet(file.as_ptr(), file.len(), section) }
}

pub fn open(file: &[u8], section: usize) -> u64 {
    // SAFETY: as for `vet`. The reply is two numbers and keeps no pointer.
    unsafe { hoidrul_open(file.as_ptr(), file.len(), section) }
}

pub fn judge(file: &[u8], set: u16, work: &mut [u16]) -> u64 {
    let (words, work) = (work.len(), work.as_mut_ptr());
    // SAFETY: as for `vet`. It writes only the `words` words of the work area, which is borrowed
    // mutably until it returns, so it overlaps the file nowhere; any word is a valid `u16`.
    unsafe { hoidrul_judge(file.as_ptr(), file.len(), set, work, words) }
}

pub fn judge_kinds(kinds: &[u8], file: &[u8], set: u16, work: &mut [u16]) -> u64 {
    let (table, count) = (kinds.as_ptr(), kinds.len());
    let (words, work) = (work.len(), work.as_mut_ptr());
    // SAFETY: as for `judge`; of the table it only reads the `count` bytes, as of the file.
    unsafe { hoidrul_judge_kinds(table, count, file.as_ptr(), file.len(), set, work, words) }
}

pub fn classes(file: &[u8], out: &mut [u8]) -> u64 {
    let (room, out) = (out.len(), out.as_mut_ptr());
    // SAFETY: as for `judge`, with the `room` bytes of the output area in place of the words.
    unsafe { hoidrul_classes(file.as_ptr(), file.len(), out, room) }
}

pub fn merge(file: &[u8], s: usize, t: usize, out: &mut [u8]) -> u64 {
    let (room, out) = (out.len(), out.as_mut_ptr());
    // SAFETY: as for `classes`.
    unsafe { hoidrul_merge(file.as_ptr(), file.len(), s, t, out, room) }
}

pub fn rewrite(file: &[u8], law: usize, node: usize, out: &mut [u8]) -> u64 {
    let (room, out) = (out.len(), out.as_mut_ptr());
    // SAFETY: as for `classes`.
    unsafe { hoidrul_rewrite(file.as_ptr(), file.len(), law, node, out, room) }
}

pub fn regular(file: &[u8], work: &mut [u8], out: &mut [u8]) -> u64 {
    let (bytes, work) = (work.len(), work.as_mut_ptr());
    let (room, out) = (out.len(), out.as_mut_ptr());
    // SAFETY: as for `judge`, with two areas, which are both borrowed mutably and so overlap nowhere.
    unsafe { hoidrul_regular(file.as_ptr(), file.len(), work, bytes, out, room) }
}
