// The calls of the test face (crates/testface), as Rust sees them. A slice goes over as its place and its length.
#[repr(C)]
#[derive(Clone, Copy, PartialEq)]
pub struct Counts {
    pub subjects: usize,
    pub objects: usize,
    pub roles: usize,
}

#[repr(C)]
pub struct Told {
    pub answer: u8,
    pub value: usize,
}

#[repr(C)]
pub struct Reading {
    pub answer: u8,
    pub line: usize,
    pub counts: Counts,
    pub separations: usize,
}

#[repr(C)]
pub struct Judged {
    pub answer: u8,
    pub position: usize,
    pub count: usize,
}

#[repr(C)]
#[derive(Clone, Copy, PartialEq)]
pub struct Transfer {
    pub subject: u8,
    pub object: u8,
    pub mode: u8,
}

#[repr(C)]
#[derive(Clone, Copy, PartialEq)]
pub struct Tally {
    pub applied: u32,
    pub outside: u32,
    pub barred: u32,
}

// A part of a lent slice: a reference to a slice is in memory, too, its place and its length.
#[repr(C)]
pub struct Part {
    pub start: *const u8,
    pub length: usize,
}

#[link(name = "testface", kind = "static")]
extern "C" {
    fn testface_read(text: *const u8, tl: usize, a: *mut u8, al: usize, p: *mut u8, pl: usize, pairs: *mut u8, sl: usize) -> Reading;
    fn testface_write(c: Counts, a: *const u8, al: usize, p: *const u8, pl: usize, count: usize, pairs: *const u8, sl: usize, text: *mut u8, tl: usize) -> Told;
    fn testface_refused_line(text: *const u8, tl: usize, line: usize, part: *mut Part);
    fn testface_fill(c: Counts, a: *const u8, al: usize, p: *const u8, pl: usize, flow: *mut u8, fl: usize) -> u8;
    fn testface_flows(n: usize, table: *const u8, tl: usize, x: usize, y: usize) -> Told;
    fn testface_label(n: usize, table: *const u8, tl: usize, x: usize, label: *mut u8, ll: usize) -> Told;
    fn testface_class_name(n: usize, table: *const u8, tl: usize, x: usize) -> Told;
    fn testface_compare(n: usize, table: *const u8, tl: usize, x: usize, y: usize) -> Told;
    fn testface_greatest(n: usize, table: *const u8, tl: usize, x: usize) -> Told;
    fn testface_effect(n: usize, before: *const u8, bl: usize, after: *const u8, al: usize, effect: *mut u8, el: usize) -> u8;
    fn testface_chosen_row(before: *const u8, bl: usize, after: *const u8, al: usize, n: usize, choice: usize, x: usize, part: *mut Part);
    fn testface_set_assignment(c: Counts, a: *mut u8, al: usize, p: *const u8, pl: usize, s: usize, r: usize, value: u8) -> u8;
    fn testface_set_permission(c: Counts, a: *const u8, al: usize, p: *mut u8, pl: usize, r: usize, o: usize, mode: u8) -> u8;
    fn testface_chain(c: Counts, a: *const u8, al: usize, p: *const u8, pl: usize, x: usize, y: usize, chain: *mut u8, cl: usize) -> Told;
    fn testface_judge(c: Counts, a: *const u8, al: usize, p: *const u8, pl: usize, count: usize, pairs: *const u8, sl: usize, chain: *mut u8, cl: usize) -> Judged;
    fn testface_new_tally() -> Tally;
    fn testface_rehearse(c: Counts, a: *const u8, al: usize, p: *const u8, pl: usize, list: *const u8, ll: usize, marks: *mut u32, ml: usize, verdicts: *mut u8, vl: usize, tally: *mut Tally) -> Told;
    fn testface_rehearse_records(c: Counts, a: *const u8, al: usize, p: *const u8, pl: usize, list: *const Transfer, ll: usize, marks: *mut u32, ml: usize, verdicts: *mut u8, vl: usize, tally: *mut Tally) -> Told;
    fn testface_report(text: *const u8, tl: usize, out: *mut u8, ol: usize) -> Told;
}

// SAFETY of all calls below: each pointer is that of a slice beside its length, and of two slices that Rust lends none that is written
// overlaps the other.

pub fn read(text: &[u8], a: &mut [u8], p: &mut [u8], pairs: &mut [u8]) -> Reading {
    unsafe { testface_read(text.as_ptr(), text.len(), a.as_mut_ptr(), a.len(), p.as_mut_ptr(), p.len(), pairs.as_mut_ptr(), pairs.len()) }
}

pub fn write(c: Counts, a: &[u8], p: &[u8], count: usize, pairs: &[u8], text: &mut [u8]) -> Told {
    unsafe { testface_write(c, a.as_ptr(), a.len(), p.as_ptr(), p.len(), count, pairs.as_ptr(), pairs.len(), text.as_mut_ptr(), text.len()) }
}

pub fn refused_line(text: &[u8], line: usize) -> Part {
    let mut part = Part { start: std::ptr::null(), length: usize::MAX };
    unsafe { testface_refused_line(text.as_ptr(), text.len(), line, &mut part) };
    part
}

pub fn fill(c: Counts, a: &[u8], p: &[u8], flow: &mut [u8]) -> u8 {
    unsafe { testface_fill(c, a.as_ptr(), a.len(), p.as_ptr(), p.len(), flow.as_mut_ptr(), flow.len()) }
}

pub fn flows(n: usize, table: &[u8], x: usize, y: usize) -> Told {
    unsafe { testface_flows(n, table.as_ptr(), table.len(), x, y) }
}

pub fn label(n: usize, table: &[u8], x: usize, label: &mut [u8]) -> Told {
    unsafe { testface_label(n, table.as_ptr(), table.len(), x, label.as_mut_ptr(), label.len()) }
}

pub fn class_name(n: usize, table: &[u8], x: usize) -> Told {
    unsafe { testface_class_name(n, table.as_ptr(), table.len(), x) }
}

pub fn compare(n: usize, table: &[u8], x: usize, y: usize) -> Told {
    unsafe { testface_compare(n, table.as_ptr(), table.len(), x, y) }
}

pub fn greatest(n: usize, table: &[u8], x: usize) -> Told {
    unsafe { testface_greatest(n, table.as_ptr(), table.len(), x) }
}

pub fn effect(n: usize, before: &[u8], after: &[u8], effect: &mut [u8]) -> u8 {
    unsafe { testface_effect(n, before.as_ptr(), before.len(), after.as_ptr(), after.len(), effect.as_mut_ptr(), effect.len()) }
}

pub fn chosen_row(before: &[u8], after: &[u8], n: usize, choice: usize, x: usize) -> Part {
    let mut part = Part { start: std::ptr::null(), length: usize::MAX };
    unsafe { testface_chosen_row(before.as_ptr(), before.len(), after.as_ptr(), after.len(), n, choice, x, &mut part) };
    part
}

pub fn set_assignment(c: Counts, a: &mut [u8], p: &[u8], s: usize, r: usize, value: u8) -> u8 {
    unsafe { testface_set_assignment(c, a.as_mut_ptr(), a.len(), p.as_ptr(), p.len(), s, r, value) }
}

pub fn set_permission(c: Counts, a: &[u8], p: &mut [u8], r: usize, o: usize, mode: u8) -> u8 {
    unsafe { testface_set_permission(c, a.as_ptr(), a.len(), p.as_mut_ptr(), p.len(), r, o, mode) }
}

pub fn chain(c: Counts, a: &[u8], p: &[u8], x: usize, y: usize, chain: &mut [u8]) -> Told {
    unsafe { testface_chain(c, a.as_ptr(), a.len(), p.as_ptr(), p.len(), x, y, chain.as_mut_ptr(), chain.len()) }
}

pub fn judge(c: Counts, a: &[u8], p: &[u8], count: usize, pairs: &[u8], chain: &mut [u8]) -> Judged {
    unsafe { testface_judge(c, a.as_ptr(), a.len(), p.as_ptr(), p.len(), count, pairs.as_ptr(), pairs.len(), chain.as_mut_ptr(), chain.len()) }
}

pub fn new_tally() -> Tally {
    unsafe { testface_new_tally() }
}

pub fn rehearse(c: Counts, a: &[u8], p: &[u8], list: &[u8], marks: &mut [u32], verdicts: &mut [u8], tally: &mut Tally) -> Told {
    unsafe { testface_rehearse(c, a.as_ptr(), a.len(), p.as_ptr(), p.len(), list.as_ptr(), list.len(), marks.as_mut_ptr(), marks.len(), verdicts.as_mut_ptr(), verdicts.len(), tally) }
}

pub fn rehearse_records(c: Counts, a: &[u8], p: &[u8], list: &[Transfer], marks: &mut [u32], verdicts: &mut [u8], tally: &mut Tally) -> Told {
    unsafe { testface_rehearse_records(c, a.as_ptr(), a.len(), p.as_ptr(), p.len(), list.as_ptr(), list.len(), marks.as_mut_ptr(), marks.len(), verdicts.as_mut_ptr(), verdicts.len(), tally) }
}

pub fn report(text: &[u8], out: &mut [u8]) -> Told {
    unsafe { testface_report(text.as_ptr(), text.len(), out.as_mut_ptr(), out.len()) }
}
