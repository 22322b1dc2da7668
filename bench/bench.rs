// Times of the library's calls and of the same methods in plain Rust, on the same sheets in the same run. usage: bench
// A line for each kind of sheet: the least time of many runs of each, in microseconds, and the ratio of the two.
mod method;
#[path = "../outside/oracle.rs"]
#[allow(dead_code)]
mod oracle;
#[path = "../outside/sheets.rs"]
#[allow(dead_code)]
mod sheets;
#[path = "../outside/testface.rs"]
#[allow(dead_code)]
mod testface;

use method::Counts;
use oracle::Sheet;
use sheets::*;
use std::hint::black_box;
use std::time::Instant;

#[link(name = "sievemarl", kind = "static")]
extern "C" {
    fn sievemarl_fill_flow(s: usize, o: usize, r: usize, assignment: *const u8, assignment_len: usize, permission: *const u8, permission_len: usize, flow: *mut u8, flow_len: usize) -> u32;
    fn sievemarl_judge(s: usize, o: usize, r: usize, assignment: *const u8, assignment_len: usize, permission: *const u8, permission_len: usize, count: usize, separations: *const u8, separations_len: usize, chain: *mut u8, chain_len: usize) -> u32;
}

// The counts as the test face takes them.
fn counts(c: &Counts) -> testface::Counts {
    testface::Counts { subjects: c.subjects, objects: c.objects, roles: c.roles }
}

fn library_fill(c: &Counts, a: &[u8], p: &[u8], flow: &mut [u8]) -> u32 {
    // SAFETY: each pointer is valid for its length, and the buffers do not overlap.
    unsafe { sievemarl_fill_flow(c.subjects, c.objects, c.roles, a.as_ptr(), a.len(), p.as_ptr(), p.len(), flow.as_mut_ptr(), flow.len()) }
}

fn library_judge(c: &Counts, a: &[u8], p: &[u8], count: usize, pairs: &[u8], chain: &mut [u8]) -> u32 {
    // SAFETY: as above.
    unsafe { sievemarl_judge(c.subjects, c.objects, c.roles, a.as_ptr(), a.len(), p.as_ptr(), p.len(), count, pairs.as_ptr(), pairs.len(), chain.as_mut_ptr(), chain.len()) }
}

fn library_read(text: &[u8], tables: &mut [u8]) -> u32 {
    let [a, p, pairs] = parts(tables);
    testface::read(text, a, p, pairs).answer as u32
}

fn rust_read(text: &[u8], tables: &mut [u8]) -> u32 {
    let [a, p, pairs] = parts(tables);
    method::read(text, a, p, pairs)
}

fn library_write(c: &Counts, a: &[u8], p: &[u8], count: usize, pairs: &[u8], text: &mut [u8]) -> u32 {
    testface::write(counts(c), a, p, count, pairs, text).value as u32
}

fn library_report(text: &[u8], out: &mut [u8]) -> u32 {
    testface::report(text, out).value as u32
}

// The three tables of a reading, in one buffer.
fn parts(tables: &mut [u8]) -> [&mut [u8]; 3] {
    let (a, rest) = tables.split_at_mut(2304);
    let (p, pairs) = rest.split_at_mut(3072);
    [a, p, pairs]
}

// The least times of two ways to do the same, run in turn, each with its buffer cleared first.
fn least_times(size: usize, mut one: impl FnMut(&mut [u8]) -> u32, mut other: impl FnMut(&mut [u8]) -> u32) -> (f64, f64) {
    let mut buffers = [vec![0u8; size], vec![0u8; size]];
    let mut least = [f64::MAX; 2];
    for _ in 0..400 {
        let mut answers = [0; 2];
        for way in 0..2 {
            let buffer = black_box(&mut buffers[way][..]);
            buffer.fill(0);
            let start = Instant::now();
            answers[way] = if way == 0 { one(buffer) } else { other(buffer) };
            least[way] = least[way].min(start.elapsed().as_secs_f64() * 1e6);
        }
        assert_eq!(answers[0], answers[1], "the answers differ");
        assert_eq!(buffers[0], buffers[1], "the buffers differ");
    }
    (least[0], least[1])
}

fn report(call: &str, kind: &str, (ours, rust): (f64, f64)) {
    println!("{call:6} {kind:22} library {ours:8.1} us   Rust {rust:8.1} us   ratio {:.2}", ours / rust);
}

fn lent(t: &Sheet) -> (Counts, Vec<u8>, Vec<u8>) {
    let counts = Counts { subjects: t.s, objects: t.o, roles: t.r };
    (counts, oracle::over(&t.assignment, &[0; 2304]), oracle::over(&t.permission, &[0; 3072]))
}

fn main() {
    let r = &mut Random(20261115);
    let order: Vec<usize> = (0..64).collect();
    let mut sheets = vec![("one chain of 97", long_chain(&order[..48], &order))];
    for (kind, assigned, permitted) in [("sparse (1 in 48)", 48, 48), ("1 in 24", 24, 24), ("1 in 8", 8, 8), ("half", 2, 2), ("all", 1, 1)] {
        sheets.push((kind, filled(48, 64, 48, assigned, permitted, r)));
    }
    for (kind, t) in &sheets {
        let (c, a, p) = lent(t);
        report("fill", kind, least_times(12544, |flow| library_fill(&c, &a, &p, flow), |flow| method::fill_flow(&c, &a, &p, flow)));
    }
    for (kind, t) in &mut sheets {
        t.separations = (0..63).map(|i| (i, 111 - i)).chain([(63, 63)]).collect();
        if *kind == "one chain of 97" {
            // the whole chain is the last separation, and all before it hold
            t.separations = (0..48).map(|s| (s, 48)).chain([(48, 96)]).collect();
        }
        let (c, a, p) = lent(t);
        let pairs = oracle::over(&t.pairs(), &[0; 128]);
        let count = t.separations.len();
        report("judge", kind, least_times(112, |chain| library_judge(&c, &a, &p, count, &pairs, chain), |chain| method::judge(&c, &a, &p, count, &pairs, chain)));
    }
    for (kind, t) in &sheets {
        let text = t.text();
        report("read", kind, least_times(2304 + 3072 + 128, |tables| library_read(&text, tables), |tables| rust_read(&text, tables)));
    }
    for (kind, t) in &sheets {
        let (c, a, p) = lent(t);
        let pairs = oracle::over(&t.pairs(), &[0; 128]);
        let count = t.separations.len();
        report("write", kind, least_times(44240, |text| library_write(&c, &a, &p, count, &pairs, text), |text| method::write(&c, &a, &p, count, &pairs, text) as u32));
    }
    for (kind, t) in &sheets {
        let text = t.text();
        report("report", kind, least_times(1435, |out| library_report(&text, out), |out| method::report(&text, out) as u32));
    }
}
