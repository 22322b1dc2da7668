// Chains of calls: what one call answers and leaves is lent to the next, and the last must keep what demands 2 and 3 promise of all of
// them. The independent implementation makes what the first call is lent, and has no part in what follows.
use crate::oracle::*;
use crate::sheets::*;
use crate::testface as face;
use face::{Counts, Tally, Transfer};

// A chain of calls: the promise, what it was asked of, and whether it was kept.
pub struct Chain {
    pub promise: &'static str,
    on: String,
    kept: bool,
}

const TEXT_BACK: &str = "an accepted sheet read and written back has the same bytes";
const TABLES_BACK: &str = "sound tables written and read back are the same tables";
const ALIKE: &str = "two rehearsals answer alike, with equal marks where a label lacks x";
const NO_CHAIN: &str = "where a label lacks x no chain is shown";
const REACHED: &str = "where a label holds x the shown chain's transfers end with different marks";
const HELD: &str = "where no label holds what it must not, every separation is said to hold";
const BROKEN: &str = "the first separation that a label breaks is named, and the shown chain's transfers end with different marks";
pub const PROMISES: [&str; 7] = [TEXT_BACK, TABLES_BACK, ALIKE, NO_CHAIN, REACHED, HELD, BROKEN];

// A call that refuses, or alters what it should leave, ends its chain: there is then nothing to hand on.
fn chain(promise: &'static str, on: String, kept: Option<bool>) -> Chain {
    Chain { promise, on, kept: kept == Some(true) }
}

// A buffer of noise that is longer than its least length.
fn noise(least: usize, random: &mut Random) -> Vec<u8> {
    (0..least + 1 + random.below(40)).map(|_| random.next() as u8).collect()
}

// ---- both round trips

// A sheet in lent buffers, with noise past the used parts.
#[derive(Clone, PartialEq)]
struct Lent {
    counts: Counts,
    assignment: Vec<u8>,
    permission: Vec<u8>,
    count: usize,
    separations: Vec<u8>,
}

impl Lent {
    fn noise(random: &mut Random) -> Lent {
        let counts = Counts { subjects: 0, objects: 0, roles: 0 };
        Lent { counts, assignment: noise(ASSIGNMENT, random), permission: noise(PERMISSION, random), count: 0, separations: noise(SEPARATIONS, random) }
    }

    fn of(t: &Sheet, random: &mut Random) -> Lent {
        let rest = Lent::noise(random);
        Lent {
            counts: Counts { subjects: t.s, objects: t.o, roles: t.r },
            assignment: over(&t.assignment, &rest.assignment),
            permission: over(&t.permission, &rest.permission),
            count: t.separations.len(),
            separations: over(&t.pairs(), &rest.separations),
        }
    }

    fn entities(&self) -> usize {
        self.counts.subjects + self.counts.objects
    }

    fn lengths(&self) -> [usize; 3] {
        let Counts { subjects, objects, roles } = self.counts;
        [subjects * roles, roles * objects, 2 * self.count]
    }

    fn used(&self) -> [&[u8]; 3] {
        let [a, p, s] = self.lengths();
        [&self.assignment[..a], &self.permission[..p], &self.separations[..s]]
    }

    // What lies past the used parts of these lengths.
    fn rest(&self, [a, p, s]: [usize; 3]) -> [&[u8]; 3] {
        [&self.assignment[a..], &self.permission[p..], &self.separations[s..]]
    }

    // These buffers with a text read into them.
    fn read(&self, text: &[u8]) -> Option<Lent> {
        let mut after = self.clone();
        let told = face::read(text, &mut after.assignment, &mut after.permission, &mut after.separations);
        after.counts = told.counts;
        after.count = told.separations;
        let left = after.rest(after.lengths()) == self.rest(after.lengths());
        ((told.answer, told.line) == (0, 0) && left).then_some(after)
    }

    // The written part of the buffer that these tables are written into.
    fn written(&self, random: &mut Random) -> Option<Vec<u8>> {
        let (before, lent) = (noise(TEXT, random), self.clone());
        let mut text = before.clone();
        let told = face::write(self.counts, &self.assignment, &self.permission, self.count, &self.separations, &mut text);
        let left = text.get(told.value..) == before.get(told.value..) && *self == lent;
        text.truncate(told.value);
        (told.answer == 0 && left).then_some(text)
    }
}

fn text_back(text: &[u8], random: &mut Random) -> Option<bool> {
    let tables = Lent::noise(random).read(text)?;
    Some(tables.written(random)? == text)
}

fn tables_back(tables: &Lent, random: &mut Random) -> Option<bool> {
    let text = tables.written(random)?;
    let back = Lent::noise(random).read(&text)?;
    Some(back.counts == tables.counts && back.used() == tables.used())
}

// ---- labels

fn label(n: usize, flow: &[u8], y: usize, random: &mut Random) -> Option<Vec<u8>> {
    let before = noise(LABEL, random);
    let mut label = before.clone();
    let told = face::label(n, flow, y, &mut label);
    (told.answer == 0 && label[n..] == before[n..]).then_some(label)
}

// The label of each entity, in the table that filling wrote.
fn labels(tables: &Lent, random: &mut Random) -> Option<Vec<Vec<u8>>> {
    let n = tables.entities();
    let before = noise(FLOW, random);
    let mut flow = before.clone();
    let answer = face::fill(tables.counts, &tables.assignment, &tables.permission, &mut flow);
    if answer != 0 || flow[n * n..] != before[n * n..] {
        return None;
    }
    (0..n).map(|y| label(n, &flow, y, random)).collect()
}

// ---- two rehearsals

// All that a rehearsal tells but the marks.
#[derive(PartialEq)]
struct Said {
    answer: u8,
    applied: usize,
    verdicts: Vec<u8>,
    tally: Tally,
}

// Two sets of marks that differ at x only.
fn starts(x: usize, random: &mut Random) -> [Vec<u32>; 2] {
    let one: Vec<u32> = (0..MARKS + 1 + random.below(8)).map(|_| random.next() as u32).collect();
    let mut other = one.clone();
    other[x] = one[x].wrapping_add([1, 1 << 31, u32::MAX, 1 + random.below(1 << 31) as u32][random.below(4)]);
    [one, other]
}

struct Rehearsal<'a> {
    tables: &'a Lent,
    list: Vec<Transfer>,
    verdicts: Vec<u8>,
    tally: Tally,
}

impl Rehearsal<'_> {
    fn new<'a>(tables: &'a Lent, list: Vec<Transfer>, tally: Tally, random: &mut Random) -> Rehearsal<'a> {
        Rehearsal { tables, list, verdicts: noise(VERDICTS, random), tally }
    }

    // By the entry for records or by that for flat bytes.
    fn made(&self, start: &[u32], records: bool) -> (Said, Vec<u32>) {
        let Lent { counts, assignment, permission, .. } = self.tables;
        let (mut marks, mut verdicts, mut tally) = (start.to_vec(), self.verdicts.clone(), self.tally);
        let told = if records {
            face::rehearse_records(*counts, assignment, permission, &self.list, &mut marks, &mut verdicts, &mut tally)
        } else {
            let flat: Vec<u8> = self.list.iter().flat_map(|t| [t.subject, t.object, t.mode]).collect();
            face::rehearse(*counts, assignment, permission, &flat, &mut marks, &mut verdicts, &mut tally)
        };
        (Said { answer: told.answer, applied: told.value, verdicts, tally }, marks)
    }

    // What all of them say, from both sets and by both entries, and the marks that each set ends with.
    fn alike(&self, starts: &[Vec<u32>; 2]) -> Option<(Said, [Vec<u32>; 2])> {
        let [flat, records] = [false, true].map(|records| starts.each_ref().map(|start| self.made(start, records)));
        let same = flat == records && flat[0].0 == flat[1].0;
        let [(said, one), (_, other)] = flat;
        let (n, length) = (self.tables.entities(), self.list.len());
        let left = said.verdicts[length..] == self.verdicts[length..] && one[n..] == starts[0][n..] && other[n..] == starts[1][n..];
        (same && left && said.answer == 0).then_some((said, [one, other]))
    }
}

// ---- demand 3

// Tables, and the labels that the calls gave for them.
struct Labelled {
    tables: Lent,
    labels: Vec<Vec<u8>>,
}

impl Labelled {
    fn holds(&self, x: usize, y: usize) -> bool {
        self.labels[y][x] == 1
    }

    // The first half, for a list of transfers; the tally goes on to the next list.
    fn lacks(&self, x: usize, list: Vec<Transfer>, tally: &mut Tally, random: &mut Random) -> Option<bool> {
        let (said, [one, other]) = Rehearsal::new(&self.tables, list, *tally, random).alike(&starts(x, random))?;
        *tally = said.tally;
        Some((0..self.tables.entities()).all(|y| self.holds(x, y) || one[y] == other[y]))
    }

    // The transfer that goes from one entity of a chain to the next; it is out of range where they are no subject and object.
    fn step(&self, from: u8, to: u8) -> Transfer {
        let s = self.tables.counts.subjects as u8;
        if from < s {
            Transfer { subject: from, object: to.wrapping_sub(s), mode: 2 }
        } else {
            Transfer { subject: to, object: from - s, mode: 1 }
        }
    }

    // The second half, for a chain that was shown from x to y.
    fn reaches(&self, shown: &[u8], x: usize, y: usize, random: &mut Random) -> Option<bool> {
        let ends = (*shown.first()? as usize, *shown.last()? as usize);
        let list = shown.windows(2).map(|pair| self.step(pair[0], pair[1])).collect();
        let (said, [one, other]) = Rehearsal::new(&self.tables, list, face::new_tally(), random).alike(&starts(x, random))?;
        Some(ends == (x, y) && said.applied == shown.len() - 1 && one[y] != other[y])
    }

    fn chain(&self, x: usize, y: usize, random: &mut Random) -> Option<bool> {
        let Lent { counts, assignment, permission, .. } = &self.tables;
        let before = noise(CHAIN, random);
        let mut shown = before.clone();
        let told = face::chain(*counts, assignment, permission, x, y, &mut shown);
        let left = shown.get(told.value..)? == &before[told.value..];
        if !self.holds(x, y) {
            return Some((told.answer, told.value) == (13, 0) && left);
        }
        Some(told.answer == 0 && left && self.reaches(&shown[..told.value], x, y, random)?)
    }

    // The position and the pair of the first separation that a label breaks.
    fn broken(&self) -> Option<(usize, usize, usize)> {
        let [.., pairs] = self.tables.used();
        pairs.chunks(2).map(|p| (p[0] as usize, p[1] as usize)).enumerate().find(|&(_, (x, y))| self.holds(x, y)).map(|(i, (x, y))| (i, x, y))
    }

    fn judged(&self, random: &mut Random) -> Option<bool> {
        let Lent { counts, assignment, permission, count, separations } = &self.tables;
        let before = noise(CHAIN, random);
        let mut shown = before.clone();
        let told = face::judge(*counts, assignment, permission, *count, separations, &mut shown);
        let left = shown.get(told.count..)? == &before[told.count..];
        match self.broken() {
            None => Some((told.answer, told.position, told.count) == (0, 0, 0) && left),
            Some((i, x, y)) => Some((told.answer, told.position) == (14, i) && left && self.reaches(&shown[..told.count], x, y, random)?),
        }
    }
}

// All entities of a small sheet, and some of a large one.
fn entities(n: usize, random: &mut Random) -> Vec<usize> {
    shuffled(n, random).into_iter().take(if n <= 12 { n } else { 6 }).collect()
}

fn transfers(t: &Sheet, random: &mut Random) -> Vec<Transfer> {
    let most = if t.n() <= 12 { 60 } else { 4096 };
    (0..random.below(most + 1)).map(|_| transfer(t, random)).map(|[subject, object, mode]| Transfer { subject, object, mode }).collect()
}

fn demand_3(t: &Sheet, on: &str, known: &Labelled, random: &mut Random) -> Vec<Chain> {
    let promise = if known.broken().is_some() { BROKEN } else { HELD };
    let mut all = vec![chain(promise, on.to_string(), known.judged(random))];
    let mut tally = face::new_tally();
    for x in entities(t.n(), random) {
        let list = transfers(t, random);
        all.push(chain(ALIKE, format!("{on}, x {x}"), known.lacks(x, list, &mut tally, random)));
        for y in entities(t.n(), random) {
            let promise = if known.holds(x, y) { REACHED } else { NO_CHAIN };
            all.push(chain(promise, format!("{on}, from {x} to {y}"), known.chain(x, y, random)));
        }
    }
    all
}

fn chains_on(t: &Sheet, random: &mut Random) -> Vec<Chain> {
    let on = format!("S {} O {} R {}", t.s, t.o, t.r);
    let tables = Lent::of(t, random);
    let mut all = vec![chain(TEXT_BACK, on.clone(), text_back(&t.text(), random)), chain(TABLES_BACK, on.clone(), tables_back(&tables, random))];
    match labels(&tables, random) {
        None => all.push(chain(ALIKE, on, None)),
        Some(labels) => all.extend(demand_3(t, &on, &Labelled { tables, labels }, random)),
    }
    all
}

// The chains of calls on sound texts and on sheets. A promise that no chain asks for is not kept.
pub fn chains(texts: &[Vec<u8>], sheets: &[Sheet], random: &mut Random) -> Vec<Chain> {
    let mut all: Vec<Chain> = texts.iter().map(|text| chain(TEXT_BACK, format!("a text of {} bytes", text.len()), text_back(text, random))).collect();
    all.extend(sheets.iter().flat_map(|t| chains_on(t, random)));
    let missing = PROMISES.iter().filter(|promise| !all.iter().any(|c| c.promise == **promise));
    let broken: Vec<Chain> = missing.map(|promise| chain(promise, "no case".to_string(), None)).collect();
    all.extend(broken);
    all
}

// Counts the chains in which the promise was not kept.
pub fn failures(all: &[Chain]) -> usize {
    let broken: Vec<&Chain> = all.iter().filter(|c| !c.kept).collect();
    for c in broken.iter().take(5) {
        println!("{}: not kept: {}", c.on, c.promise);
    }
    broken.len()
}
