// One call on one kind of sheet, for its instructions to be counted. usage: count CALL KIND, with KIND from 0 to 5 as in bench.rs, and
// CALL as below or, for the same method in Rust, rust_fill, rust_judge, rust_read, rust_write or rust_report.
// bench/count.sh runs it under valgrind for each call and kind.
mod method;
#[path = "../outside/oracle.rs"]
#[allow(dead_code)]
mod oracle;
#[path = "../outside/sheets.rs"]
#[allow(dead_code)]
mod sheets;
#[path = "../outside/testface.rs"]
#[allow(dead_code)]
mod testface;

use sheets::*;

#[no_mangle]
#[inline(never)]
fn rust_fill(c: &method::Counts, a: &[u8], p: &[u8], flow: &mut [u8]) -> usize {
    method::fill_flow(c, a, p, flow) as usize
}

#[no_mangle]
#[inline(never)]
fn rust_judge(c: &method::Counts, a: &[u8], p: &[u8], count: usize, pairs: &[u8], chain: &mut [u8]) -> usize {
    method::judge(c, a, p, count, pairs, chain) as usize
}

#[no_mangle]
#[inline(never)]
fn rust_read(text: &[u8], a: &mut [u8], p: &mut [u8], pairs: &mut [u8]) -> usize {
    method::read(text, a, p, pairs) as usize
}

#[no_mangle]
#[inline(never)]
fn rust_write(c: &method::Counts, a: &[u8], p: &[u8], count: usize, pairs: &[u8], text: &mut [u8]) -> usize {
    method::write(c, a, p, count, pairs, text)
}

#[no_mangle]
#[inline(never)]
fn rust_report(text: &[u8], out: &mut [u8]) -> usize {
    method::report(text, out)
}

#[link(name = "sievemarl", kind = "static")]
extern "C" {
    fn sievemarl_fill_flow(s: usize, o: usize, r: usize, a: *const u8, al: usize, p: *const u8, pl: usize, flow: *mut u8, fl: usize) -> u32;
    fn sievemarl_judge(s: usize, o: usize, r: usize, a: *const u8, al: usize, p: *const u8, pl: usize, count: usize, pairs: *const u8, sl: usize, chain: *mut u8, cl: usize) -> u32;
}

fn main() {
    let words: Vec<String> = std::env::args().collect();
    let kind: usize = words[2].parse().unwrap();
    let random = &mut Random(20261115);
    let order: Vec<usize> = (0..64).collect();
    let mut all = vec![long_chain(&order[..48], &order)];
    for share in [48, 24, 8, 2, 1] {
        all.push(filled(48, 64, 48, share, share, random));
    }
    let t = &mut all[kind];
    t.separations = (0..63).map(|i| (i, 111 - i)).chain([(63, 63)]).collect();
    if kind == 0 {
        t.separations = (0..48).map(|s| (s, 48)).chain([(48, 96)]).collect();
    }
    let (s, o, r, n) = (t.s, t.o, t.r, t.s + t.o);
    let mut a = oracle::over(&t.assignment, &[0; 2304]);
    let mut p = oracle::over(&t.permission, &[0; 3072]);
    let mut pairs = oracle::over(&t.pairs(), &[0; 128]);
    let count = t.separations.len();
    let mut text = t.text();
    let mut flow = vec![0u8; 12544];
    let (mut chain, mut out, mut marks, mut verdicts) = ([0u8; 112], [0u8; 1435], [1u32; 112], [0u8; 4096]);
    let list: Vec<u8> = (0..4096).flat_map(|k: usize| [(k % 50) as u8, (k % 65) as u8, (1 + k % 2) as u8]).collect();
    let records: Vec<testface::Transfer> = list.chunks(3).map(|t| testface::Transfer { subject: t[0], object: t[1], mode: t[2] }).collect();
    let mut tally = testface::new_tally();
    let rust = method::Counts { subjects: s, objects: o, roles: r };
    let c = testface::Counts { subjects: s, objects: o, roles: r };
    let (al, pl, sl, fl) = (a.len(), p.len(), pairs.len(), flow.len());
    // SAFETY: each pointer is valid for its length, and the buffers do not overlap.
    let filled = unsafe { sievemarl_fill_flow(s, o, r, a.as_ptr(), al, p.as_ptr(), pl, flow.as_mut_ptr(), fl) as usize };
    if words[1].ends_with("write") {
        text.resize(44240, 0);
    }
    let told = match words[1].as_str() {
        "fill" => filled,
        // SAFETY: as above.
        "judge" => unsafe { sievemarl_judge(s, o, r, a.as_ptr(), al, p.as_ptr(), pl, count, pairs.as_ptr(), sl, chain.as_mut_ptr(), 112) as usize },
        "read" => testface::read(&text, &mut a, &mut p, &mut pairs).line,
        "write" => testface::write(c, &a, &p, count, &pairs, &mut text).value,
        "refused_line" => testface::refused_line(&text, 40).length,
        "chain" => testface::chain(c, &a, &p, 48, 96, &mut chain).value,
        "set_assignment" => testface::set_assignment(c, &mut a, &p, 3, 5, 1) as usize,
        "set_permission" => testface::set_permission(c, &a, &mut p, 3, 5, 3) as usize,
        "flows" => testface::flows(n, &flow, 3, 70).value,
        "compare" => testface::compare(n, &flow, 3, 70).value,
        "label" => testface::label(n, &flow, 70, &mut chain).value,
        "class_name" => testface::class_name(n, &flow, 70).value,
        "greatest" => testface::greatest(n, &flow, 70).value,
        "effect" => testface::effect(n, &flow, &flow, &mut chain) as usize,
        "chosen_row" => testface::chosen_row(&flow, &flow, n, 1, 70).length,
        "new_tally" => testface::new_tally().applied as usize,
        "rehearse" => testface::rehearse(c, &a, &p, &list, &mut marks, &mut verdicts, &mut tally).value,
        "rehearse_records" => testface::rehearse_records(c, &a, &p, &records, &mut marks, &mut verdicts, &mut tally).value,
        "report" => testface::report(&text, &mut out).value,
        "rust_fill" => rust_fill(&rust, &a, &p, &mut flow),
        "rust_judge" => rust_judge(&rust, &a, &p, count, &pairs, &mut chain),
        "rust_read" => rust_read(&text, &mut a, &mut p, &mut pairs),
        "rust_write" => rust_write(&rust, &a, &p, count, &pairs, &mut text),
        "rust_report" => rust_report(&text, &mut out),
        other => panic!("no call {other}"),
    };
    println!("{told}");
}
