// A case, and what it should answer: six numbers and six buffers, before and after. Those that a call does not name are left out of it
// (an answer's number is then 0).
//
// READ              text, assignment, permission, separations              answer, line, S, O, R, count
// WRITE             S, O, R, count; assignment, permission, separations, text        answer, length
// REFUSED_LINE      line; text                                             0, and the part's buffer, place and length
// FILL              S, O, R; assignment, permission, flow                  answer
// FLOWS             N, x, y; flow                                          answer, value
// LABEL_OF          N, x; flow, label                                      answer, size
// CLASS_NAME        N, x; flow                                             answer, name
// COMPARE           N, x, y; flow                                          answer, and 1 equal, 2 below, 3 above, 4 incomparable
// GREATEST          N, x; flow                                             answer, flags
// EFFECT_OF         N; before, after, effect                               answer
// CHOSEN_ROW        N, choice, x; before, after                            0, and the part's buffer, place and length
// SET_ASSIGNMENT    S, O, R, s, r, value; assignment, permission           answer
// SET_PERMISSION    S, O, R, r, o, mode; assignment, permission            answer
// SHOWN_CHAIN       S, O, R, x, y; assignment, permission, chain           answer, count
// JUDGE             S, O, R, count; assignment, permission, separations, chain       answer, position, count
// NEW_TALLY                                                                0, applied, outside, barred
// REHEARSE          S, O, R, tally; assignment, permission, transfers, marks, verdicts     answer, applied, tally
// REHEARSE_RECORDS  the same, with each three bytes of transfers as one record             the same
// REPORT            text, out                                              answer, length
//
// A tally is three numbers: applied, outside and barred, each modulo 2^32. Marks are numbers of four bytes, high byte first: as many as
// the buffer has whole fours. There are as many records as the buffer has whole threes.
use crate::oracle::*;

#[derive(Clone, Debug, PartialEq, Eq)]
pub struct Case {
    pub call: u8,
    pub numbers: [u64; 6],
    pub buffers: [Vec<u8>; 6],
}

#[derive(Clone, Debug, PartialEq, Eq)]
pub struct Answer {
    pub numbers: [u64; 6],
    pub buffers: [Vec<u8>; 6],
}

pub const READ: u8 = 1;
pub const WRITE: u8 = 2;
pub const REFUSED_LINE: u8 = 3;
pub const FILL: u8 = 4;
pub const FLOWS: u8 = 5;
pub const LABEL_OF: u8 = 6;
pub const CLASS_NAME: u8 = 7;
pub const COMPARE: u8 = 8;
pub const GREATEST: u8 = 9;
pub const EFFECT_OF: u8 = 10;
pub const CHOSEN_ROW: u8 = 11;
pub const SET_ASSIGNMENT: u8 = 12;
pub const SET_PERMISSION: u8 = 13;
pub const SHOWN_CHAIN: u8 = 14;
pub const JUDGE: u8 = 15;
pub const NEW_TALLY: u8 = 16;
pub const REHEARSE: u8 = 17;
pub const REHEARSE_RECORDS: u8 = 18;
pub const REPORT: u8 = 19;
pub const CALLS: std::ops::RangeInclusive<u8> = READ..=REPORT;

pub fn six<T: Default>(given: Vec<T>) -> [T; 6] {
    let mut all = given;
    while all.len() < 6 {
        all.push(T::default());
    }
    all.try_into().ok().unwrap()
}

pub fn case(call: u8, numbers: Vec<u64>, buffers: Vec<Vec<u8>>) -> Case {
    Case { call, numbers: six(numbers), buffers: six(buffers) }
}

// The numbers of an answer, and the buffers that are not as they were.
type Outcome = (Vec<u64>, Vec<(usize, Vec<u8>)>);

// A refusal tells its number alone and changes nothing.
fn refused(number: u8) -> Outcome {
    (vec![number as u64], vec![])
}

impl Case {
    // What document 01 says the call answers and leaves.
    pub fn expected(&self) -> Answer {
        let (numbers, changed) = self.outcome();
        let mut buffers = self.buffers.clone();
        for (i, front) in changed {
            buffers[i] = over(&front, &self.buffers[i]);
        }
        Answer { numbers: six(numbers), buffers }
    }

    fn outcome(&self) -> Outcome {
        match self.call {
            READ => self.read(),
            WRITE => self.write(),
            REFUSED_LINE => self.refused_line(),
            FILL => self.fill(),
            FLOWS | LABEL_OF | CLASS_NAME | COMPARE | GREATEST => self.question(),
            EFFECT_OF => self.effect(),
            CHOSEN_ROW => self.chosen_row(),
            SET_ASSIGNMENT | SET_PERMISSION => self.change(),
            SHOWN_CHAIN => self.chain(),
            JUDGE => self.judge(),
            NEW_TALLY => (vec![0, 0, 0, 0], vec![]),
            REHEARSE | REHEARSE_RECORDS => self.rehearse(),
            REPORT => self.report(),
            other => panic!("no call has the number {other}"),
        }
    }

    fn number(&self, i: usize) -> usize {
        self.numbers[i] as usize
    }

    fn tables(&self) -> Tables<'_> {
        Tables { s: self.number(0), o: self.number(1), r: self.number(2), assignment: &self.buffers[0], permission: &self.buffers[1] }
    }

    fn flow(&self, i: usize) -> FlowTable<'_> {
        FlowTable { n: self.number(0), bytes: &self.buffers[i] }
    }

    fn read(&self) -> Outcome {
        let [text, assignment, permission, separations, ..] = &self.buffers;
        if assignment.len() < ASSIGNMENT || permission.len() < PERMISSION || separations.len() < SEPARATIONS {
            return refused(1);
        }
        match read_text(text) {
            Err((number, at)) => (vec![number as u64, at as u64], vec![]),
            Ok(t) => {
                let pairs = t.pairs();
                let numbers = [0, 0, t.s, t.o, t.r, t.separations.len()].map(|n| n as u64).to_vec();
                (numbers, vec![(1, t.assignment), (2, t.permission), (3, pairs)])
            }
        }
    }

    fn write(&self) -> Outcome {
        match self.tables().separated(self.buffers[3].len() < TEXT, self.number(3), &self.buffers[2]) {
            Err(number) => refused(number),
            Ok(t) => (vec![0, t.text().len() as u64], vec![(3, t.text())]),
        }
    }

    fn refused_line(&self) -> Outcome {
        let text = &self.buffers[0];
        let (start, length) = refused_line(text, self.numbers[0]);
        (vec![0, 0, start as u64, length as u64], vec![])
    }

    fn fill(&self) -> Outcome {
        match self.tables().sheet(self.buffers[2].len() < FLOW, false) {
            Err(number) => refused(number),
            Ok(t) => (vec![0], vec![(2, t.flow_bytes())]),
        }
    }

    fn question(&self) -> Outcome {
        let table = self.flow(0);
        let (x, y) = (self.number(1), self.number(2));
        let two = matches!(self.call, FLOWS | COMPARE);
        let short = self.call == LABEL_OF && self.buffers[1].len() < LABEL;
        let asked = if two { vec![x, y] } else { vec![x] };
        let refusal = table.refusal(short, &asked);
        if refusal != 0 {
            return refused(refusal);
        }
        let value = match self.call {
            FLOWS => table.to(x, y) as usize,
            LABEL_OF => table.label(x).iter().filter(|&&b| b == 1).count(),
            CLASS_NAME => table.class_name(x),
            GREATEST => table.flags(x),
            _ => match (table.to(x, y), table.to(y, x)) {
                (true, true) => 1,
                (true, false) => 2,
                (false, true) => 3,
                (false, false) => 4,
            },
        };
        let written = if self.call == LABEL_OF { vec![(1, table.label(x))] } else { vec![] };
        (vec![0, value as u64], written)
    }

    fn effect(&self) -> Outcome {
        let (before, after) = (self.flow(0), self.flow(1));
        let short = self.buffers[1].len() < FLOW || self.buffers[2].len() < EFFECT;
        let refusal = before.refusal(short, &[]);
        if refusal != 0 {
            return refused(refusal);
        }
        let refusal = after.refusal(false, &[]);
        if refusal != 0 {
            return refused(refusal);
        }
        (vec![0], vec![(2, effects(&before, &after))])
    }

    fn chosen_row(&self) -> Outcome {
        let (n, choice, x) = (self.number(0), self.number(1), self.number(2));
        let bad = self.buffers[0].len() < FLOW || self.buffers[1].len() < FLOW || n > 112 || choice > 1 || x >= n;
        let part = if bad { [0, 0, 0] } else { [choice, x * n, n] };
        (vec![0, part[0] as u64, part[1] as u64, part[2] as u64], vec![])
    }

    fn change(&self) -> Outcome {
        let t = match self.tables().sheet(false, false) {
            Err(number) => return refused(number),
            Ok(t) => t,
        };
        let assigns = self.call == SET_ASSIGNMENT;
        let (rows, columns, most) = if assigns { (t.s, t.r, 1) } else { (t.r, t.o, 3) };
        let (i, j, value) = (self.number(3), self.number(4), (self.numbers[5] % 256) as u8);
        if i >= rows || j >= columns || value > most {
            return refused(6);
        }
        let at = if assigns { 0 } else { 1 };
        let mut table = if assigns { t.assignment } else { t.permission };
        table[i * columns + j] = value;
        (vec![0], vec![(at, table)])
    }

    fn chain(&self) -> Outcome {
        let (x, y) = (self.number(3), self.number(4));
        let t = match self.tables().sheet(self.buffers[2].len() < CHAIN, false) {
            Err(number) => return refused(number),
            Ok(t) => t,
        };
        if x >= t.n() || y >= t.n() {
            return refused(10);
        }
        match t.chain(x, y) {
            None => refused(13),
            Some(chain) => (vec![0, chain.len() as u64], vec![(2, chain)]),
        }
    }

    fn judge(&self) -> Outcome {
        match self.tables().separated(self.buffers[3].len() < CHAIN, self.number(3), &self.buffers[2]) {
            Err(number) => refused(number),
            Ok(t) => match t.broken() {
                None => (vec![0, 0, 0], vec![]),
                Some((i, chain)) => (vec![14, i as u64, chain.len() as u64], vec![(3, chain)]),
            },
        }
    }

    fn rehearse(&self) -> Outcome {
        let [.., transfers, marks, verdicts, _] = &self.buffers;
        let tally = [3, 4, 5].map(|i| self.numbers[i] % (1 << 32));
        let kept = |number: u8| (vec![number as u64, 0, tally[0], tally[1], tally[2]], vec![]);
        let records = self.call == REHEARSE_RECORDS;
        let whole = transfers.len() - transfers.len() % 3;
        let long = if records { whole / 3 > 4096 } else { transfers.len() > 12288 };
        let t = match self.tables().sheet(marks.len() / 4 < MARKS || verdicts.len() < VERDICTS, long) {
            Err(number) => return kept(number),
            Ok(t) => t,
        };
        if !records && whole != transfers.len() {
            return kept(15);
        }
        if tally.iter().any(|&count| count > 4_294_963_199) {
            return kept(17);
        }
        let before: Vec<u32> = marks.chunks_exact(4).map(|b| u32::from_be_bytes(b.try_into().unwrap())).collect();
        let (after, written) = t.rehearsed(&transfers[..whole], &before);
        let count = |v: u8| written.iter().filter(|&&b| b == v).count() as u64;
        let numbers = vec![0, count(0), tally[0] + count(0), tally[1] + count(10), tally[2] + count(16)];
        (numbers, vec![(3, after.iter().flat_map(|m| m.to_be_bytes()).collect()), (4, written)])
    }

    fn report(&self) -> Outcome {
        if self.buffers[1].len() < OUTPUT {
            return refused(1);
        }
        let output = output(&self.buffers[0]);
        (vec![0, output.len() as u64], vec![(1, output)])
    }
}
