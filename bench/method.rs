// The library's methods once more, in plain safe Rust, for the times to be compared with: the same tables, the same loops, the same
// order of work, with Rust's own bounds checks and no proof.

const PLACES: usize = 48;
const FAR: u8 = 255;

fn has(mode: u8, wanted: u8) -> bool {
    mode == wanted || mode == 3
}

fn some_above(bytes: &[u8], most: u8) -> bool {
    bytes.iter().fold(false, |some, &b| some | (b > most))
}

pub struct Counts {
    pub subjects: usize,
    pub objects: usize,
    pub roles: usize,
}

// 1, 5 or 11
pub fn sheet_refusal(short: bool, c: &Counts, assignment: &[u8], permission: &[u8]) -> u8 {
    if short || assignment.len() < 2304 || permission.len() < 3072 {
        return 1;
    }
    if c.subjects > 48 || c.objects > 64 || c.roles > 48 {
        return 5;
    }
    if some_above(&assignment[..c.subjects * c.roles], 1) || some_above(&permission[..c.roles * c.objects], 3) {
        return 11;
    }
    0
}

fn gather(c: &Counts, assignment: &[u8], lists: &mut [u8], used: &mut [usize]) {
    for s in 0..c.subjects {
        let list = &mut lists[s * PLACES..(s + 1) * PLACES];
        let mut count = 0;
        for (role, &byte) in assignment[s * c.roles..(s + 1) * c.roles].iter().enumerate() {
            if byte == 1 {
                list[count] = role as u8;
                count += 1;
            }
        }
        used[s] = count;
    }
}

fn may(c: &Counts, lists: &[u8], used: &[usize], permission: &[u8], s: usize, o: usize, wanted: u8) -> bool {
    let list = &lists[s * PLACES..s * PLACES + used[s]];
    list.iter().any(|&role| has(permission[role as usize * c.objects + o], wanted))
}

fn channel(c: &Counts, lists: &[u8], used: &[usize], permission: &[u8], x: usize, y: usize) -> u8 {
    let s = c.subjects;
    let there = if x < s {
        y >= s && may(c, lists, used, permission, x, y - s, 2)
    } else {
        y < s && may(c, lists, used, permission, y, x - s, 1)
    };
    there as u8
}

fn fill_channels(c: &Counts, assignment: &[u8], permission: &[u8], channels: &mut [u8]) {
    let n = c.subjects + c.objects;
    let mut lists = [0u8; 2304];
    let mut used = [0usize; 48];
    gather(c, assignment, &mut lists, &mut used);
    for x in 0..n {
        for (y, byte) in channels[x * n..(x + 1) * n].iter_mut().enumerate() {
            *byte = channel(c, &lists, &used, permission, x, y);
        }
    }
}

// Brings what x flows to to the front of the order, and sets the row's bytes.
fn fill_row(channels: &[u8], n: usize, x: usize, row: &mut [u8]) {
    let mut order = [0usize; 112];
    for (k, place) in order[..n].iter_mut().enumerate() {
        *place = k;
    }
    order[x] = 0;
    order[0] = x;
    let mut head = 0;
    let mut tail = 1;
    while head < tail {
        let from = &channels[order[head] * n..order[head] * n + n];
        let mut k = tail;
        while k < n {
            let y = order[k];
            if from[y] == 1 {
                order[k] = order[tail];
                order[tail] = y;
                tail += 1;
            }
            k += 1;
        }
        head += 1;
    }
    row.fill(0);
    for &y in &order[..tail] {
        row[y] = 1;
    }
}

pub fn fill_flow(c: &Counts, assignment: &[u8], permission: &[u8], flow: &mut [u8]) -> u32 {
    let refusal = sheet_refusal(flow.len() < 12544, c, assignment, permission);
    if refusal != 0 {
        return refusal as u32;
    }
    let n = c.subjects + c.objects;
    let mut channels = [0u8; 12544];
    fill_channels(c, assignment, permission, &mut channels);
    for x in 0..n {
        fill_row(&channels, n, x, &mut flow[x * n..(x + 1) * n]);
    }
    0
}

// ---- judging

fn separation_refusal(n: usize, count: usize, separations: &[u8]) -> u8 {
    if count > 64 {
        return 8;
    }
    let mut last = None;
    for pair in separations[..2 * count].chunks(2) {
        if pair[0] as usize >= n || pair[1] as usize >= n {
            return 6;
        }
        if last >= Some(pair) {
            return 7;
        }
        last = Some(pair);
    }
    0
}

fn first_broken(channels: &[u8], n: usize, separations: &[u8]) -> Option<usize> {
    let mut row = [0u8; 112];
    let mut held = n;
    for (i, pair) in separations.chunks(2).enumerate() {
        let x = pair[0] as usize;
        if held != x {
            fill_row(channels, n, x, &mut row[..n]);
            held = x;
        }
        if row[pair[1] as usize] == 1 {
            return Some(i);
        }
    }
    None
}

fn measure(channels: &[u8], n: usize, y: usize) -> [u8; 112] {
    let mut dist = [FAR; 112];
    dist[y] = 0;
    let mut r = 0;
    loop {
        let mut fresh = 0;
        for w in 0..n {
            if dist[w] == r {
                for v in 0..n {
                    if dist[v] == FAR && channels[v * n + w] == 1 {
                        dist[v] = r + 1;
                        fresh += 1;
                    }
                }
            }
        }
        if fresh == 0 {
            return dist;
        }
        r += 1;
    }
}

fn show_chain(channels: &[u8], n: usize, x: usize, y: usize, chain: &mut [u8]) -> usize {
    let dist = measure(channels, n, y);
    if dist[x] == FAR {
        return 0;
    }
    let mut at = x;
    let mut i = 0;
    while at != y {
        chain[i] = at as u8;
        let d = dist[at] - 1;
        at = (0..n).find(|&w| channels[at * n + w] == 1 && dist[w] == d).unwrap_or(y);
        i += 1;
    }
    chain[i] = at as u8;
    i + 1
}

pub fn judge(c: &Counts, assignment: &[u8], permission: &[u8], count: usize, separations: &[u8], chain: &mut [u8]) -> u32 {
    let refusal = sheet_refusal(separations.len() < 128 || chain.len() < 112, c, assignment, permission);
    if refusal != 0 {
        return refusal as u32;
    }
    let n = c.subjects + c.objects;
    let refusal = separation_refusal(n, count, separations);
    if refusal != 0 {
        return refusal as u32;
    }
    let mut channels = [0u8; 12544];
    fill_channels(c, assignment, permission, &mut channels);
    match first_broken(&channels, n, &separations[..2 * count]) {
        None => 0,
        Some(i) => {
            let (x, y) = (separations[2 * i] as usize, separations[2 * i + 1] as usize);
            let shown = show_chain(&channels, n, x, y, chain);
            14 + 256 * i as u32 + 65536 * shown as u32
        }
    }
}

// ---- reading: one pass that checks, one that writes

#[derive(Clone, Copy)]
enum Frame {
    Header(u8, u8, u8),
    Assign(u8, u8),
    Permit(u8, u8, u8),
    Separate(u8, u8),
    End(u8, u8),
}

#[derive(Clone, Copy)]
enum Parsed {
    NoBytes,
    NoFrame,
    Good(Frame),
}

#[derive(Clone, Copy, Default)]
struct Passed {
    lines: usize,
    ended: bool,
    subjects: usize,
    objects: usize,
    roles: usize,
    last: usize,
    separations: usize,
}

fn digit(b: u8) -> Option<u8> {
    match b {
        b'0'..=b'9' => Some(b - b'0'),
        b'a'..=b'f' => Some(b - b'a' + 10),
        _ => None,
    }
}

fn byte(line: &[u8], i: usize) -> u8 {
    digit(line[i]).unwrap_or(0) * 16 + digit(line[i + 1]).unwrap_or(0)
}

fn frame(line: &[u8]) -> Parsed {
    let good = match (line.len(), byte(line, 0)) {
        (6, 2) => Frame::Assign(byte(line, 2), byte(line, 4)),
        (6, 4) => Frame::Separate(byte(line, 2), byte(line, 4)),
        (6, 5) => Frame::End(byte(line, 2), byte(line, 4)),
        (8, 1) => Frame::Header(byte(line, 2), byte(line, 4), byte(line, 6)),
        (8, 3) => Frame::Permit(byte(line, 2), byte(line, 4), byte(line, 6)),
        _ => return Parsed::NoFrame,
    };
    Parsed::Good(good)
}

fn parse_at(text: &[u8], p: usize) -> (Parsed, usize) {
    let end = text[p..].iter().position(|&b| b == b'\n').map_or(text.len(), |i| p + i);
    let line = &text[p..end];
    let pairs = !line.is_empty() && line.len() % 2 == 0 && line.iter().all(|&b| digit(b).is_some());
    let parsed = if end < text.len() && pairs { frame(line) } else { Parsed::NoBytes };
    (parsed, end + 1)
}

fn key(f: Frame) -> usize {
    let (kind, a, b) = match f {
        Frame::Header(s, o, _) => (1, s, o),
        Frame::Assign(s, r) => (2, s, r),
        Frame::Permit(r, o, _) => (3, r, o),
        Frame::Separate(x, y) => (4, x, y),
        Frame::End(h, l) => (5, h, l),
    };
    kind * 65536 + a as usize * 256 + b as usize
}

fn frame_fault(k: &Passed, f: Frame) -> u8 {
    let n = k.subjects + k.objects;
    if matches!(f, Frame::Header(..)) != (k.lines == 0) {
        return 4;
    }
    if matches!(f, Frame::Header(s, o, r) if s > 48 || o > 64 || r > 48) {
        return 5;
    }
    let outside = match f {
        Frame::Assign(s, r) => s as usize >= k.subjects || r as usize >= k.roles,
        Frame::Permit(r, o, m) => r as usize >= k.roles || o as usize >= k.objects || m == 0 || m > 3,
        Frame::Separate(x, y) => x as usize >= n || y as usize >= n,
        _ => false,
    };
    if outside {
        return 6;
    }
    if key(f) <= k.last {
        return 7;
    }
    if matches!(f, Frame::Separate(..)) && k.separations >= 64 {
        return 8;
    }
    if matches!(f, Frame::End(h, l) if h as usize * 256 + l as usize != k.lines) {
        return 9;
    }
    0
}

fn line_fault(k: &Passed, p: Parsed) -> u8 {
    if k.ended {
        return 9;
    }
    match p {
        Parsed::NoBytes => 2,
        Parsed::NoFrame => 3,
        Parsed::Good(f) => frame_fault(k, f),
    }
}

fn after(k: Passed, f: Frame) -> Passed {
    let mut next = Passed { lines: k.lines + 1, last: key(f), ..k };
    match f {
        Frame::Header(s, o, r) => {
            next.subjects = s as usize;
            next.objects = o as usize;
            next.roles = r as usize;
        }
        Frame::Separate(..) => next.separations += 1,
        Frame::End(..) => next.ended = true,
        _ => {}
    }
    next
}

fn check_text(text: &[u8]) -> u8 {
    let mut k = Passed::default();
    let mut p = 0;
    while p < text.len() {
        let (parsed, next) = parse_at(text, p);
        let fault = line_fault(&k, parsed);
        if fault != 0 {
            return fault;
        }
        if let Parsed::Good(f) = parsed {
            k = after(k, f);
        }
        p = next;
    }
    if k.ended {
        0
    } else {
        9
    }
}

fn store(k: &Passed, f: Frame, assignment: &mut [u8], permission: &mut [u8], separations: &mut [u8]) {
    match f {
        Frame::Header(s, o, r) => {
            assignment[..s as usize * r as usize].fill(0);
            permission[..r as usize * o as usize].fill(0);
        }
        Frame::Assign(s, r) => assignment[s as usize * k.roles + r as usize] = 1,
        Frame::Permit(r, o, m) => permission[r as usize * k.objects + o as usize] = m,
        Frame::Separate(x, y) => {
            separations[2 * k.separations] = x;
            separations[2 * k.separations + 1] = y;
        }
        Frame::End(..) => {}
    }
}

// What is known of the lines of a text that is read into the tables, or its refusal.
fn read_lines(text: &[u8], assignment: &mut [u8], permission: &mut [u8], separations: &mut [u8]) -> Result<Passed, u8> {
    if assignment.len() < 2304 || permission.len() < 3072 || separations.len() < 128 {
        return Err(1);
    }
    if text.len() > 44240 {
        return Err(5);
    }
    let refusal = check_text(text);
    if refusal != 0 {
        return Err(refusal);
    }
    let mut k = Passed::default();
    let mut p = 0;
    while p < text.len() {
        let (parsed, next) = parse_at(text, p);
        if let Parsed::Good(f) = parsed {
            store(&k, f, assignment, permission, separations);
            k = after(k, f);
        }
        p = next;
    }
    Ok(k)
}

pub fn read(text: &[u8], assignment: &mut [u8], permission: &mut [u8], separations: &mut [u8]) -> u32 {
    read_lines(text, assignment, permission, separations).err().unwrap_or(0) as u32
}

// ---- writing

struct Pen<'a> {
    text: &'a mut [u8],
    at: usize,
    lines: usize,
}

impl Pen<'_> {
    fn byte(&mut self, b: u8) {
        for v in [b / 16, b % 16] {
            self.text[self.at] = if v < 10 { b'0' + v } else { b'a' + v - 10 };
            self.at += 1;
        }
    }

    fn line(&mut self, bytes: &[u8]) {
        for &b in bytes {
            self.byte(b);
        }
        self.text[self.at] = b'\n';
        self.at += 1;
        self.lines += 1;
    }
}

pub fn write(c: &Counts, assignment: &[u8], permission: &[u8], count: usize, separations: &[u8], text: &mut [u8]) -> usize {
    let short = separations.len() < 128 || text.len() < 44240;
    if sheet_refusal(short, c, assignment, permission) != 0 || separation_refusal(c.subjects + c.objects, count, separations) != 0 {
        return 0;
    }
    let mut pen = Pen { text, at: 0, lines: 0 };
    pen.line(&[1, c.subjects as u8, c.objects as u8, c.roles as u8]);
    for (i, &b) in assignment[..c.subjects * c.roles].iter().enumerate() {
        if b != 0 {
            pen.line(&[2, (i / c.roles) as u8, (i % c.roles) as u8]);
        }
    }
    for (i, &b) in permission[..c.roles * c.objects].iter().enumerate() {
        if b != 0 {
            pen.line(&[3, (i / c.objects) as u8, (i % c.objects) as u8, b]);
        }
    }
    for pair in separations[..2 * count].chunks(2) {
        pen.line(&[4, pair[0], pair[1]]);
    }
    let lines = pen.lines;
    pen.line(&[5, (lines / 256) as u8, (lines % 256) as u8]);
    pen.at
}

// ---- the whole output for an accepted sheet; a refused one is not benchmarked

fn entity_line(n: usize, flow: &[u8], x: usize) -> [u8; 5] {
    let flows = |a: usize, b: usize| flow[a * n + b] == 1;
    let class = (0..x).find(|&z| flows(x, z) && flows(z, x)).unwrap_or(x);
    let secret = (0..n).all(|y| y == x || !flows(x, y));
    let integral = (0..n).all(|y| y == x || !flows(y, x));
    let size = (0..n).filter(|&y| flows(y, x)).count();
    [0x81, x as u8, class as u8, secret as u8 + 2 * integral as u8, size as u8]
}

pub fn report(text: &[u8], out: &mut [u8]) -> usize {
    let (mut assignment, mut permission, mut separations) = ([0u8; 2304], [0u8; 3072], [0u8; 128]);
    let Ok(k) = read_lines(text, &mut assignment, &mut permission, &mut separations) else { return 0 };
    let c = Counts { subjects: k.subjects, objects: k.objects, roles: k.roles };
    let n = c.subjects + c.objects;
    let mut flow = [0u8; 12544];
    fill_flow(&c, &assignment, &permission, &mut flow);
    let mut pen = Pen { text: out, at: 0, lines: 0 };
    for x in 0..n {
        pen.line(&entity_line(n, &flow, x));
    }
    let mut chain = [0u8; 112];
    let judged = judge(&c, &assignment, &permission, k.separations, &separations, &mut chain) as usize;
    if judged == 0 {
        pen.line(&[0x82, 0]);
    } else {
        let (position, count) = (judged / 256 % 256, judged / 65536);
        let mut line = [0u8; 116];
        line[..4].copy_from_slice(&[0x82, 1, position as u8, count as u8]);
        line[4..4 + count].copy_from_slice(&chain[..count]);
        pen.line(&line[..4 + count]);
    }
    pen.at
}
