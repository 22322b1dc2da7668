// Document 01 once more, written from its sentences alone, for the outside tests to compare with.
// It shares no code with the library: tables are vectors, flow is closed by Warshall's passes, and a sheet's text is read by splitting
// it at line feeds. The least length of the program's output (OUTPUT) is a decision of the project's own.

pub const ASSIGNMENT: usize = 2304;
pub const PERMISSION: usize = 3072;
pub const SEPARATIONS: usize = 128;
pub const FLOW: usize = 12544;
pub const CHAIN: usize = 112;
pub const LABEL: usize = 112;
pub const EFFECT: usize = 112;
pub const TEXT: usize = 44240;
pub const MARKS: usize = 112;
pub const VERDICTS: usize = 4096;
pub const OUTPUT: usize = 1435;

#[derive(Clone, Debug, PartialEq, Eq)]
pub struct Sheet {
    pub s: usize,
    pub o: usize,
    pub r: usize,
    pub assignment: Vec<u8>,
    pub permission: Vec<u8>,
    pub separations: Vec<(u8, u8)>,
}

impl Sheet {
    pub fn blank(s: usize, o: usize, r: usize) -> Sheet {
        Sheet { s, o, r, assignment: vec![0; s * r], permission: vec![0; r * o], separations: vec![] }
    }

    pub fn n(&self) -> usize {
        self.s + self.o
    }

    // Some role assigned to the subject has the wanted mode (bit 1 read, bit 2 write) on the object.
    pub fn may(&self, s: usize, o: usize, wanted: u8) -> bool {
        (0..self.r).any(|r| self.assignment[s * self.r + r] == 1 && self.permission[r * self.o + o] & wanted != 0)
    }

    pub fn channel(&self, x: usize, y: usize) -> bool {
        let s = self.s;
        if x < s && y >= s {
            self.may(x, y - s, 2)
        } else if x >= s && y < s {
            self.may(y, x - s, 1)
        } else {
            false
        }
    }

    pub fn channels(&self) -> Vec<Vec<bool>> {
        let n = self.n();
        (0..n).map(|x| (0..n).map(|y| self.channel(x, y)).collect()).collect()
    }

    pub fn flow(&self) -> Vec<Vec<bool>> {
        let n = self.n();
        let mut f = self.channels();
        for x in 0..n {
            f[x][x] = true;
        }
        for k in 0..n {
            let through = f[k].clone();
            for row in f.iter_mut() {
                if row[k] {
                    for (cell, more) in row.iter_mut().zip(&through) {
                        *cell |= *more;
                    }
                }
            }
        }
        f
    }

    // The shortest chain, and of the shortest the smallest.
    pub fn chain(&self, x: usize, y: usize) -> Option<Vec<u8>> {
        let n = self.n();
        let ch = self.channels();
        let mut steps = vec![usize::MAX; n];
        steps[y] = 0;
        let mut edge = vec![y];
        while !edge.is_empty() {
            let mut before = vec![];
            for &b in &edge {
                for a in 0..n {
                    if ch[a][b] && steps[a] == usize::MAX {
                        steps[a] = steps[b] + 1;
                        before.push(a);
                    }
                }
            }
            edge = before;
        }
        if steps[x] == usize::MAX {
            return None;
        }
        let mut at = x;
        let mut chain = vec![x as u8];
        while at != y {
            at = (0..n).find(|&z| ch[at][z] && steps[z] != usize::MAX && steps[z] + 1 == steps[at]).unwrap();
            chain.push(at as u8);
        }
        Some(chain)
    }

    // The separations as bytes, two each.
    pub fn pairs(&self) -> Vec<u8> {
        self.separations.iter().flat_map(|p| [p.0, p.1]).collect()
    }

    pub fn text(&self) -> Vec<u8> {
        let mut frames: Vec<Vec<u8>> = vec![vec![1, self.s as u8, self.o as u8, self.r as u8]];
        for s in 0..self.s {
            for r in 0..self.r {
                if self.assignment[s * self.r + r] != 0 {
                    frames.push(vec![2, s as u8, r as u8]);
                }
            }
        }
        for r in 0..self.r {
            for o in 0..self.o {
                let m = self.permission[r * self.o + o];
                if m != 0 {
                    frames.push(vec![3, r as u8, o as u8, m]);
                }
            }
        }
        for &(x, y) in &self.separations {
            frames.push(vec![4, x, y]);
        }
        let count = frames.len();
        frames.push(vec![5, (count / 256) as u8, (count % 256) as u8]);
        frames.iter().flat_map(|f| line(f)).collect()
    }
}

// Bytes as a line of lowercase hexadecimal.
pub fn line(bytes: &[u8]) -> Vec<u8> {
    let mut out: Vec<u8> = bytes.iter().flat_map(|b| format!("{b:02x}").into_bytes()).collect();
    out.push(b'\n');
    out
}

// ---- reading
pub type Refusal = (u8, usize);

fn bytes_of(digits: &[u8]) -> Option<Vec<u8>> {
    if digits.is_empty() || digits.len() % 2 == 1 || !digits.iter().all(|d| b"0123456789abcdef".contains(d)) {
        return None;
    }
    let text = std::str::from_utf8(digits).unwrap();
    Some((0..digits.len() / 2).map(|i| u8::from_str_radix(&text[2 * i..2 * i + 2], 16).unwrap()).collect())
}

pub fn read_text(text: &[u8]) -> Result<Sheet, Refusal> {
    if text.len() > TEXT {
        return Err((5, 0));
    }
    let mut lines: Vec<&[u8]> = text.split(|&b| b == b'\n').collect();
    let unfinished = lines.pop().unwrap();
    let whole = lines.len();
    if !unfinished.is_empty() {
        lines.push(unfinished);
    }
    let mut sheet = Sheet::blank(0, 0, 0);
    let mut last: Vec<u8> = vec![];
    let mut ended = false;
    for (i, digits) in lines.iter().enumerate() {
        let number = i + 1;
        if ended {
            return Err((9, number));
        }
        let bytes = match bytes_of(digits) {
            Some(b) if i < whole => b,
            _ => return Err((2, number)),
        };
        let length = match bytes[0] {
            1 | 3 => 4,
            2 | 4 | 5 => 3,
            _ => return Err((3, number)),
        };
        if bytes.len() != length {
            return Err((3, number));
        }
        if (bytes[0] == 1) != (i == 0) {
            return Err((4, number));
        }
        let (a, b) = (bytes[1] as usize, bytes[2] as usize);
        match bytes[0] {
            1 => {
                let r = bytes[3] as usize;
                if a > 48 || b > 64 || r > 48 {
                    return Err((5, number));
                }
                sheet = Sheet::blank(a, b, r);
            }
            2 => {
                if a >= sheet.s || b >= sheet.r {
                    return Err((6, number));
                }
            }
            3 => {
                if a >= sheet.r || b >= sheet.o || bytes[3] == 0 || bytes[3] > 3 {
                    return Err((6, number));
                }
            }
            4 => {
                if a >= sheet.n() || b >= sheet.n() {
                    return Err((6, number));
                }
            }
            _ => {}
        }
        if bytes[..3] <= last[..] {
            return Err((7, number));
        }
        last = bytes[..3].to_vec();
        match bytes[0] {
            2 => {
                let r = sheet.r;
                sheet.assignment[a * r + b] = 1;
            }
            3 => {
                let o = sheet.o;
                sheet.permission[a * o + b] = bytes[3];
            }
            4 => {
                if sheet.separations.len() == 64 {
                    return Err((8, number));
                }
                sheet.separations.push((bytes[1], bytes[2]));
            }
            5 => {
                if a * 256 + b != i {
                    return Err((9, number));
                }
                ended = true;
            }
            _ => {}
        }
    }
    if ended {
        Ok(sheet)
    } else {
        Err((9, lines.len() + 1))
    }
}

// ---- calls on tables: the refusals, or the sheet in the used parts
pub struct Tables<'a> {
    pub s: usize,
    pub o: usize,
    pub r: usize,
    pub assignment: &'a [u8],
    pub permission: &'a [u8],
}

impl Tables<'_> {
    pub fn sheet(&self, other_short: bool, list_long: bool) -> Result<Sheet, u8> {
        if other_short || self.assignment.len() < ASSIGNMENT || self.permission.len() < PERMISSION {
            return Err(1);
        }
        if self.s > 48 || self.o > 64 || self.r > 48 || list_long {
            return Err(5);
        }
        let mut sheet = Sheet::blank(self.s, self.o, self.r);
        sheet.assignment.copy_from_slice(&self.assignment[..self.s * self.r]);
        sheet.permission.copy_from_slice(&self.permission[..self.r * self.o]);
        if sheet.assignment.iter().any(|&b| b > 1) || sheet.permission.iter().any(|&b| b > 3) {
            return Err(11);
        }
        Ok(sheet)
    }

    pub fn separated(&self, other_short: bool, count: usize, pairs: &[u8]) -> Result<Sheet, u8> {
        let mut sheet = self.sheet(other_short || pairs.len() < SEPARATIONS, false)?;
        if count > 64 {
            return Err(8);
        }
        for i in 0..count {
            let pair = (pairs[2 * i], pairs[2 * i + 1]);
            if pair.0 as usize >= sheet.n() || pair.1 as usize >= sheet.n() {
                return Err(6);
            }
            if sheet.separations.last().is_some_and(|&before| before >= pair) {
                return Err(7);
            }
            sheet.separations.push(pair);
        }
        Ok(sheet)
    }
}

// The start of a buffer is written, and the rest of it stays.
pub fn over(front: &[u8], buffer: &[u8]) -> Vec<u8> {
    let mut out = front.to_vec();
    out.extend_from_slice(&buffer[front.len()..]);
    out
}

// Where line number k lies: its start and its length.
pub fn refused_line(text: &[u8], k: u64) -> (usize, usize) {
    let mut start = 0;
    let mut number = 1;
    while start < text.len() {
        let end = text[start..].iter().position(|&b| b == b'\n').map_or(text.len(), |p| start + p);
        if number == k {
            return (start, end - start);
        }
        start = end + 1;
        number += 1;
    }
    (text.len(), 0)
}

// ---- questions on a flow table, by its bytes alone
pub struct FlowTable<'a> {
    pub n: usize,
    pub bytes: &'a [u8],
}

impl FlowTable<'_> {
    pub fn to(&self, x: usize, y: usize) -> bool {
        self.bytes[x * self.n + y] == 1
    }

    fn faulty(&self) -> bool {
        let n = self.n;
        self.bytes[..n * n].iter().any(|&b| b > 1) || (0..n).any(|x| !self.to(x, x))
    }

    // 1, 5, 12, 10
    pub fn refusal(&self, other_short: bool, asked: &[usize]) -> u8 {
        if other_short || self.bytes.len() < FLOW {
            1
        } else if self.n > 112 {
            5
        } else if self.faulty() {
            12
        } else if asked.iter().any(|&x| x >= self.n) {
            10
        } else {
            0
        }
    }

    pub fn label(&self, x: usize) -> Vec<u8> {
        (0..self.n).map(|y| self.to(y, x) as u8).collect()
    }

    pub fn class_name(&self, x: usize) -> usize {
        (0..self.n).find(|&y| self.to(x, y) && self.to(y, x)).unwrap()
    }

    // 1 greatest secrecy, 2 greatest integrity, summed.
    pub fn flags(&self, x: usize) -> usize {
        let others = || (0..self.n).filter(move |&y| y != x);
        let secrecy = !others().any(|y| self.to(x, y));
        let integrity = !others().any(|y| self.to(y, x));
        secrecy as usize + 2 * integrity as usize
    }
}

pub fn effects(before: &FlowTable, after: &FlowTable) -> Vec<u8> {
    let one = |x: usize| {
        let (old, new) = (before.label(x), after.label(x));
        let gained = old.iter().zip(&new).any(|(a, b)| a < b);
        let lost = old.iter().zip(&new).any(|(a, b)| a > b);
        gained as u8 + 2 * lost as u8
    };
    (0..before.n).map(one).collect()
}

impl Sheet {
    pub fn flow_bytes(&self) -> Vec<u8> {
        self.flow().iter().flatten().map(|&b| b as u8).collect()
    }

    // The position and the chain of the first broken separation.
    pub fn broken(&self) -> Option<(usize, Vec<u8>)> {
        self.separations.iter().enumerate().find_map(|(i, &(x, y))| self.chain(x as usize, y as usize).map(|c| (i, c)))
    }

    // The marks and the verdict bytes after a list of transfers.
    pub fn rehearsed(&self, transfers: &[u8], marks: &[u32]) -> (Vec<u32>, Vec<u8>) {
        let mut marks = marks.to_vec();
        let verdicts = transfers.chunks(3).map(|t| self.transfer(t, &mut marks)).collect();
        (marks, verdicts)
    }

    fn transfer(&self, t: &[u8], marks: &mut [u32]) -> u8 {
        let (s, o, mode) = (t[0] as usize, t[1] as usize, t[2]);
        if s >= self.s || o >= self.o || mode == 0 || mode > 2 {
            return 10;
        }
        if !self.may(s, o, mode) {
            return 16;
        }
        let (source, destination) = if mode == 1 { (self.s + o, s) } else { (s, self.s + o) };
        marks[destination] = ((marks[destination] as u64 + marks[source] as u64) % (1 << 32)) as u32;
        0
    }
}

// The whole output of the program for a text.
pub fn output(text: &[u8]) -> Vec<u8> {
    let sheet = match read_text(text) {
        Err((number, at)) => return line(&[0x80, number, (at / 256) as u8, (at % 256) as u8]),
        Ok(sheet) => sheet,
    };
    let flow = sheet.flow_bytes();
    let table = FlowTable { n: sheet.n(), bytes: &flow };
    let mut out = vec![];
    for x in 0..sheet.n() {
        let size: u8 = table.label(x).iter().sum();
        out.extend(line(&[0x81, x as u8, table.class_name(x) as u8, table.flags(x) as u8, size]));
    }
    let verdict = match sheet.broken() {
        None => vec![0x82, 0],
        Some((i, chain)) => [vec![0x82, 1, i as u8, chain.len() as u8], chain].concat(),
    };
    out.extend(line(&verdict));
    out
}
