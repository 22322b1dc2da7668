// The outside tests of the face for C: each call on buffers between guard bytes, compared with an independent implementation.
// usage: face [SEED [COUNT]]. The last line is 'N passed, M failed'.
#[allow(dead_code)]
mod oracle;
#[allow(dead_code)]
mod sheets;

use oracle::*;
use sheets::*;

#[link(name = "sievemarl", kind = "static")]
extern "C" {
    fn sievemarl_fill_flow(s: usize, o: usize, r: usize, assignment: *const u8, assignment_len: usize, permission: *const u8, permission_len: usize, flow: *mut u8, flow_len: usize) -> u32;
    fn sievemarl_judge(s: usize, o: usize, r: usize, assignment: *const u8, assignment_len: usize, permission: *const u8, permission_len: usize, count: usize, separations: *const u8, separations_len: usize, chain: *mut u8, chain_len: usize) -> u32;
}

const GUARD: usize = 64;

// A buffer between guard bytes. An empty one may be lent by a null pointer.
struct Guarded {
    bytes: Vec<u8>,
    null: bool,
}

impl Guarded {
    fn new(part: &[u8], random: &mut Random) -> Guarded {
        let guard = [0xa5; GUARD];
        Guarded { bytes: [&guard[..], part, &guard[..]].concat(), null: part.is_empty() && random.one_in(2) }
    }

    fn len(&self) -> usize {
        self.bytes.len() - 2 * GUARD
    }

    fn pointer(&mut self) -> *mut u8 {
        if self.null {
            std::ptr::null_mut()
        } else {
            self.bytes[GUARD..].as_mut_ptr()
        }
    }

    // Whether it holds these bytes, and the guards are whole.
    fn holds(&self, part: &[u8]) -> bool {
        let guard = [0xa5; GUARD];
        self.bytes == [&guard[..], part, &guard[..]].concat()
    }
}

#[derive(Clone)]
struct Lent {
    numbers: [usize; 4],
    assignment: Vec<u8>,
    permission: Vec<u8>,
    separations: Vec<u8>,
    flow: Vec<u8>,
    chain: Vec<u8>,
}

fn lend(t: &Sheet, random: &mut Random) -> Lent {
    Lent {
        numbers: [t.s, t.o, t.r, t.separations.len()],
        assignment: lent(&t.assignment, ASSIGNMENT, random),
        permission: lent(&t.permission, PERMISSION, random),
        separations: lent(&t.pairs(), SEPARATIONS, random),
        flow: buffer(FLOW, random),
        chain: buffer(CHAIN, random),
    }
}

// One number, length or byte is another.
fn spoil(l: &mut Lent, random: &mut Random) {
    let buffer = match random.below(5) {
        0 => &mut l.assignment,
        1 => &mut l.permission,
        2 => &mut l.separations,
        3 => &mut l.flow,
        _ => &mut l.chain,
    };
    match random.below(4) {
        0 => buffer.truncate(random.below(buffer.len() + 1)),
        1 => buffer.clear(),
        2 => buffer[random.below(40)] = random.next() as u8,
        _ => l.numbers[random.below(4)] = [49, 65, 66, 1 << 32, usize::MAX - 1, usize::MAX][random.below(6)],
    }
}

// What the two calls should return and leave.
fn expected(l: &Lent) -> (u32, Vec<u8>, u32, Vec<u8>) {
    let [s, o, r, count] = l.numbers;
    let tables = Tables { s, o, r, assignment: &l.assignment, permission: &l.permission };
    let (filled, flow) = match tables.sheet(l.flow.len() < FLOW, false) {
        Err(number) => (number as u32, l.flow.clone()),
        Ok(t) => (0, over(&t.flow_bytes(), &l.flow)),
    };
    let (judged, chain) = match tables.separated(l.chain.len() < CHAIN, count, &l.separations) {
        Err(number) => (number as u32, l.chain.clone()),
        Ok(t) => match t.broken() {
            None => (0, l.chain.clone()),
            Some((i, chain)) => (14 + 256 * i as u32 + 65536 * chain.len() as u32, over(&chain, &l.chain)),
        },
    };
    (filled, flow, judged, chain)
}

// Whether both calls answer as they should and change what they should.
fn agrees(l: &Lent, random: &mut Random) -> bool {
    let (filled, flow, judged, chain) = expected(l);
    let [s, o, r, count] = l.numbers;
    let mut a = Guarded::new(&l.assignment, random);
    let mut p = Guarded::new(&l.permission, random);
    let mut pairs = Guarded::new(&l.separations, random);
    let mut f = Guarded::new(&l.flow, random);
    let mut c = Guarded::new(&l.chain, random);
    // SAFETY: each pointer is valid for its length, and the buffers do not overlap.
    let answers = unsafe {
        (
            sievemarl_fill_flow(s, o, r, a.pointer(), a.len(), p.pointer(), p.len(), f.pointer(), f.len()),
            sievemarl_judge(s, o, r, a.pointer(), a.len(), p.pointer(), p.len(), count, pairs.pointer(), pairs.len(), c.pointer(), c.len()),
        )
    };
    answers == (filled, judged) && a.holds(&l.assignment) && p.holds(&l.permission) && pairs.holds(&l.separations) && f.holds(&flow) && c.holds(&chain)
}

// So many zeros, in pages that are not touched yet, where the system has them to give.
fn zeros(size: usize) -> Option<Vec<u8>> {
    let layout = std::alloc::Layout::array::<u8>(size).unwrap();
    // SAFETY: the layout has a size, and the zeros are bytes of a vector with this layout.
    unsafe {
        let start = std::alloc::alloc_zeroed(layout);
        (!start.is_null()).then(|| Vec::from_raw_parts(start, size, size))
    }
}

// A buffer of more than 2^32 bytes is not too short: no length is cut at the border.
fn huge_buffers(mut long: Vec<u8>, random: &mut Random) -> bool {
    let t = largest();
    let l = lend(&t, random);
    let [s, o, r, count] = l.numbers;
    let (a, p, pairs) = (&l.assignment, &l.permission, &l.separations);
    // SAFETY: as above.
    let filled = unsafe { sievemarl_fill_flow(s, o, r, a.as_ptr(), a.len(), p.as_ptr(), p.len(), long.as_mut_ptr(), long.len()) };
    let flow = t.flow_bytes();
    let right = filled == 0 && long[..flow.len()] == flow && long[flow.len()..][..4096].iter().all(|&b| b == 0);
    // SAFETY: as above.
    let judged = unsafe { sievemarl_judge(s, o, r, a.as_ptr(), a.len(), p.as_ptr(), p.len(), count, pairs.as_ptr(), pairs.len(), long.as_mut_ptr(), long.len()) };
    let (i, chain) = t.broken().unwrap();
    right && judged == 14 + 256 * i as u32 + 65536 * chain.len() as u32 && long[..chain.len()] == chain
}

fn main() {
    let words: Vec<String> = std::env::args().collect();
    let mut random = Random(words.get(1).map_or(20261115, |w| w.parse::<u64>().unwrap()) | 1);
    let count: usize = words.get(2).map_or(4000, |w| w.parse().unwrap());
    let r = &mut random;
    let order: Vec<usize> = (0..64).collect();
    let mut longest = long_chain(&order[..48], &order);
    longest.separations = vec![(48, 96)];
    let mut all = vec![lend(&largest(), r), lend(&Sheet::blank(0, 0, 0), r), lend(&longest, r)];
    for i in 0..count {
        let mut t = if i % 20 == 0 { full(r) } else { small(r) };
        if r.one_in(3) {
            // pairs that hold, and one that may not
            let pairs = std::mem::take(&mut t.separations);
            t.separations = pairs.into_iter().filter(|&(x, y)| t.chain(x as usize, y as usize).is_none() || r.one_in(6)).collect();
        }
        let l = lend(&t, r);
        let mut other = l.clone();
        spoil(&mut other, r);
        all.push(l);
        all.push(other);
    }
    let mut results: Vec<bool> = all.iter().map(|l| agrees(l, r)).collect();
    match zeros((1 << 32) + 5) {
        Some(long) => results.push(huge_buffers(long, r)),
        None => println!("not run, since there is no memory for it: a buffer of more than 2^32 bytes"),
    }
    let failed = results.iter().filter(|ok| !**ok).count();
    println!("{} passed, {} failed", results.len() - failed, failed);
    std::process::exit((failed > 0) as i32);
}
