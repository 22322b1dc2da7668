// Makes the call of a case through the test face. Each buffer, the marks, the records and the tally are lent between guards, which must
// be as they were.
use crate::cases::*;
use crate::testface as face;
use face::{Counts, Part, Tally, Told, Transfer};

// An odd count, so that buffers of bytes begin at odd places.
const GUARDS: usize = 35;

struct Guarded<T> {
    cells: Vec<T>,
    guard: T,
}

impl<T: Copy + PartialEq> Guarded<T> {
    fn new(part: &[T], guard: T) -> Guarded<T> {
        let guards = [guard; GUARDS];
        Guarded { cells: [&guards, part, &guards].concat(), guard }
    }

    fn part(&mut self) -> &mut [T] {
        let end = self.cells.len() - GUARDS;
        &mut self.cells[GUARDS..end]
    }

    // What lies between the guards; none where one is not as it was.
    fn left(mut self) -> Option<Vec<T>> {
        let part = self.part().to_vec();
        (self.cells == Guarded::new(&part, self.guard).cells).then_some(part)
    }
}

type Lent = [Guarded<u8>; 6];

fn told(t: Told) -> Vec<u64> {
    vec![t.answer as u64, t.value as u64]
}

// Which of the lent buffers a part lies in, and where. Guards stand between any two buffers, empty ones too, so an empty part has one
// place like any other.
fn place(part: Part, lent: &mut Lent) -> Option<Vec<u64>> {
    let start = part.start as usize;
    for (i, buffer) in lent.iter_mut().enumerate() {
        let bytes = buffer.part().as_ptr_range();
        let (from, to) = (bytes.start as usize, bytes.end as usize);
        if from <= start && start <= to && part.length <= to - start {
            return Some([0, i, start - from, part.length].map(|n| n as u64).to_vec());
        }
    }
    None
}

// A call on a sheet's tables or a text. The numbers that it answers.
fn on_sheet(case: &Case, lent: &mut Lent) -> Vec<u64> {
    let [s, o, r, i, j, k] = case.numbers.map(|n| n as usize);
    let counts = Counts { subjects: s, objects: o, roles: r };
    let [a, b, c, d, ..] = lent.each_mut().map(|buffer| buffer.part());
    match case.call {
        READ => {
            let r = face::read(a, b, c, d);
            [r.answer as usize, r.line, r.counts.subjects, r.counts.objects, r.counts.roles, r.separations].map(|n| n as u64).to_vec()
        }
        WRITE => told(face::write(counts, a, b, i, c, d)),
        FILL => vec![face::fill(counts, a, b, c) as u64],
        SET_ASSIGNMENT => vec![face::set_assignment(counts, a, b, i, j, k as u8) as u64],
        SET_PERMISSION => vec![face::set_permission(counts, a, b, i, j, k as u8) as u64],
        SHOWN_CHAIN => told(face::chain(counts, a, b, i, j, c)),
        JUDGE => {
            let v = face::judge(counts, a, b, i, c, d);
            vec![v.answer as u64, v.position as u64, v.count as u64]
        }
        REPORT => told(face::report(a, b)),
        other => panic!("call {other} is not on a sheet"),
    }
}

// A call on flow tables.
fn on_flow(case: &Case, lent: &mut Lent) -> Vec<u64> {
    let [n, x, y, ..] = case.numbers.map(|n| n as usize);
    let [a, b, c, ..] = lent.each_mut().map(|buffer| buffer.part());
    match case.call {
        FLOWS => told(face::flows(n, a, x, y)),
        LABEL_OF => told(face::label(n, a, x, b)),
        CLASS_NAME => told(face::class_name(n, a, x)),
        COMPARE => told(face::compare(n, a, x, y)),
        GREATEST => told(face::greatest(n, a, x)),
        EFFECT_OF => vec![face::effect(n, a, b, c) as u64],
        other => panic!("call {other} is not on a flow table"),
    }
}

// A call that hands a part back.
fn part(case: &Case, lent: &mut Lent) -> Option<Vec<u64>> {
    let [first, choice, x, ..] = case.numbers.map(|n| n as usize);
    let [a, b, ..] = lent.each_mut().map(|buffer| buffer.part());
    let part = match case.call {
        REFUSED_LINE => face::refused_line(a, first),
        _ => face::chosen_row(a, b, first, choice, x),
    };
    place(part, lent)
}

fn numbers_of(tally: Tally) -> [u64; 3] {
    [tally.applied, tally.outside, tally.barred].map(|n| n as u64)
}

fn new_tally() -> Vec<u64> {
    [&[0][..], &numbers_of(face::new_tally())].concat()
}

// A rehearsal, of flat bytes or of records; the marks come out of their buffer, and go back.
fn rehearsal(case: &Case, lent: &mut Lent) -> Option<Vec<u64>> {
    let [s, o, r, ..] = case.numbers.map(|n| n as usize);
    let counts = Counts { subjects: s, objects: o, roles: r };
    let [applied, outside, barred] = [3, 4, 5].map(|i| case.numbers[i] as u32);
    let mut tally = Guarded::new(&[Tally { applied, outside, barred }], Tally { applied: 0xa5, outside: 0xa6, barred: 0xa7 });
    let [a, b, list, bytes, verdicts, _] = lent.each_mut().map(|buffer| buffer.part());
    let before: Vec<u32> = bytes.chunks_exact(4).map(|m| u32::from_be_bytes(m.try_into().unwrap())).collect();
    let mut marks = Guarded::new(&before, 0xa5a5_a5a5);
    let t = if case.call == REHEARSE {
        face::rehearse(counts, a, b, list, marks.part(), verdicts, &mut tally.part()[0])
    } else {
        let transfers: Vec<Transfer> = list.chunks_exact(3).map(|t| Transfer { subject: t[0], object: t[1], mode: t[2] }).collect();
        let mut records = Guarded::new(&transfers, Transfer { subject: 1, object: 1, mode: 1 });
        let t = face::rehearse_records(counts, a, b, records.part(), marks.part(), verdicts, &mut tally.part()[0]);
        (records.left()? == transfers).then_some(t)?
    };
    for (place, mark) in bytes.chunks_exact_mut(4).zip(marks.left()?) {
        place.copy_from_slice(&mark.to_be_bytes());
    }
    Some([told(t), numbers_of(tally.left()?[0]).to_vec()].concat())
}

// What the call answers and leaves; none where it touched a guard, or handed back what is no part of a lent buffer.
pub fn made(case: &Case) -> Option<Answer> {
    let mut lent = case.buffers.each_ref().map(|b| Guarded::new(b, 0xa5));
    let numbers = match case.call {
        READ | WRITE | FILL | SET_ASSIGNMENT | SET_PERMISSION | SHOWN_CHAIN | JUDGE | REPORT => on_sheet(case, &mut lent),
        REFUSED_LINE | CHOSEN_ROW => part(case, &mut lent)?,
        NEW_TALLY => new_tally(),
        REHEARSE | REHEARSE_RECORDS => rehearsal(case, &mut lent)?,
        _ => on_flow(case, &mut lent),
    };
    let buffers = lent.map(Guarded::left).into_iter().collect::<Option<Vec<_>>>()?;
    Some(Answer { numbers: six(numbers), buffers: six(buffers) })
}
