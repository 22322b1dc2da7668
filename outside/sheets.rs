// Sheets, transfers, texts and buffers from a seed, so that a seed gives the same cases everywhere.
use crate::oracle::*;

// A small generator of numbers (xorshift).
pub struct Random(pub u64);

impl Random {
    pub fn next(&mut self) -> u64 {
        self.0 ^= self.0 << 13;
        self.0 ^= self.0 >> 7;
        self.0 ^= self.0 << 17;
        self.0
    }

    pub fn below(&mut self, n: usize) -> usize {
        (self.next() >> 11) as usize % n.max(1)
    }

    pub fn one_in(&mut self, n: usize) -> bool {
        self.below(n) == 0
    }
}

// A sheet of these counts, of which about one byte in `assigned` and one in `permitted` is not 0.
pub fn filled(s: usize, o: usize, r: usize, assigned: usize, permitted: usize, random: &mut Random) -> Sheet {
    let mut t = Sheet::blank(s, o, r);
    for b in t.assignment.iter_mut() {
        *b = random.one_in(assigned) as u8;
    }
    for b in t.permission.iter_mut() {
        *b = if random.one_in(permitted) { 1 + random.below(3) as u8 } else { 0 };
    }
    t.separations = some_pairs(t.n(), 64, random);
    t
}

// At most so many pairs of entities, ascending.
pub fn some_pairs(n: usize, most: usize, random: &mut Random) -> Vec<(u8, u8)> {
    let wanted = if n == 0 { 0 } else { random.below(most + 1) };
    let mut pairs: Vec<(u8, u8)> = (0..wanted).map(|_| (random.below(n) as u8, random.below(n) as u8)).collect();
    pairs.sort();
    pairs.dedup();
    pairs
}

// A small sheet, each count from 0 to 6.
pub fn small(random: &mut Random) -> Sheet {
    let (s, o, r) = (random.below(7), random.below(7), random.below(7));
    let (assigned, permitted) = (1 + random.below(6), 1 + random.below(6));
    let mut t = filled(s, o, r, assigned, permitted, random);
    t.separations = some_pairs(t.n(), 8, random);
    t
}

// A sheet of all sizes at their most; sparse ones have long chains.
pub fn full(random: &mut Random) -> Sheet {
    let (assigned, permitted) = [(1, 1), (2, 2), (6, 12), (24, 24), (40, 30), (48, 48)][random.below(6)];
    filled(48, 64, 48, assigned, permitted, random)
}

// 5,442 lines and 44,240 bytes.
pub fn largest() -> Sheet {
    let mut t = Sheet::blank(48, 64, 48);
    t.assignment.fill(1);
    t.permission.fill(3);
    t.separations = (0..64).map(|i| (i, 111 - i)).collect();
    t
}

// One chain through all subjects, of 97 entities: subject number order[i] reads the object before it and writes the one after it.
pub fn long_chain(order: &[usize], objects: &[usize]) -> Sheet {
    let mut t = Sheet::blank(48, 64, 48);
    for (i, &s) in order.iter().enumerate() {
        t.assignment[s * 48 + s] = 1;
        t.permission[s * 64 + objects[i]] = 1;
        t.permission[s * 64 + objects[i + 1]] = 2;
    }
    t
}

pub fn shuffled(n: usize, random: &mut Random) -> Vec<usize> {
    let mut all: Vec<usize> = (0..n).collect();
    for i in (1..n).rev() {
        all.swap(i, random.below(i + 1));
    }
    all
}

// A transfer that is permitted now and then, or is out of range.
pub fn transfer(t: &Sheet, random: &mut Random) -> [u8; 3] {
    if random.one_in(12) {
        return [random.next() as u8, random.next() as u8, random.below(5) as u8];
    }
    [random.below(t.s + 1) as u8, random.below(t.o + 1) as u8, 1 + random.below(2) as u8]
}

// A buffer of at least some length that holds other bytes.
pub fn buffer(least: usize, random: &mut Random) -> Vec<u8> {
    let longer = if random.one_in(2) { random.below(40) } else { 0 };
    vec![if random.one_in(2) { 255 } else { random.next() as u8 }; least + longer]
}

// A used part in such a buffer.
pub fn lent(part: &[u8], least: usize, random: &mut Random) -> Vec<u8> {
    over(part, &buffer(least, random))
}

// A sound text, damaged at one place.
pub fn damaged(mut text: Vec<u8>, random: &mut Random) -> Vec<u8> {
    let at = random.below(text.len());
    match random.below(7) {
        0 => text[at] = random.next() as u8,
        1 => text[at] = b"0123456789abcdef\nABC\r"[random.below(21)],
        2 => {
            text.remove(at);
        }
        3 => text.insert(at, b"0123456789abcdef\n"[random.below(17)]),
        4 => text.truncate(at),
        5 => {
            let mut lines: Vec<Vec<u8>> = text.split_inclusive(|&b| b == b'\n').map(|l| l.to_vec()).collect();
            let (i, j) = (random.below(lines.len()), random.below(lines.len()));
            lines.swap(i, j);
            text = lines.concat();
        }
        _ => {
            let lines: Vec<Vec<u8>> = text.split_inclusive(|&b| b == b'\n').map(|l| l.to_vec()).collect();
            let i = random.below(lines.len());
            let mut more = lines.clone();
            more.insert(random.below(lines.len() + 1), lines[i].clone());
            text = more.concat();
        }
    }
    text
}

// The texts that are written out in a file, with the number and the line that document 01 gives them.
pub fn listed(path: &str) -> Vec<(u8, usize, Vec<u8>)> {
    let file = std::fs::read_to_string(path).expect("the listed texts");
    let rows = file.lines().filter(|l| !l.starts_with('#') && !l.is_empty());
    rows.map(|row| {
        let part: Vec<&str> = row.splitn(4, " | ").collect();
        let text = part[2].replace("\\n", "\n").replace("\\r", "\r").into_bytes();
        (part[0].trim().parse().unwrap(), part[1].trim().parse().unwrap(), text)
    })
    .collect()
}
