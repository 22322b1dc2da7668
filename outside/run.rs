// The outside tests: cases from a seed and from a list of texts, made through the test face and compared with an independent
// implementation, and chains of calls. usage: run TEXTS [SEED [COUNT]]. The last line is 'N passed, M failed'.
mod cases;
mod chained;
mod limits;
mod made;
mod oracle;
mod sheets;
mod testface;

use cases::*;
use oracle::*;
use sheets::*;

// ---- the text of a sheet

fn read_case(text: Vec<u8>, random: &mut Random) -> Case {
    case(READ, vec![], vec![text, buffer(ASSIGNMENT, random), buffer(PERMISSION, random), buffer(SEPARATIONS, random)])
}

fn report_case(text: Vec<u8>, random: &mut Random) -> Case {
    let least = if random.one_in(8) { OUTPUT - 1 } else { OUTPUT };
    case(REPORT, vec![], vec![text, buffer(least, random)])
}

// Separations i x 8 + j of nine subjects, the first `count` of them, and one more line.
fn separations(count: usize, last: &str) -> Vec<u8> {
    let mut text = b"01090000\n".to_vec();
    for i in 0..count {
        text.extend(line(&[4, (i / 8) as u8, (i % 8) as u8]));
    }
    text.extend(last.as_bytes());
    text
}

// The texts that are too long to write out.
fn long_texts() -> Vec<(u8, usize, Vec<u8>)> {
    let mut sixty_four = separations(64, "");
    sixty_four.extend(line(&[5, 0, 65]));
    let mut over_size = b"zz\n".to_vec();
    over_size.resize(TEXT + 1, b'0');
    let mut at_size = b"zz\n".to_vec();
    at_size.resize(TEXT, b'0');
    let whole = largest().text();
    assert_eq!((whole.len(), whole.iter().filter(|&&b| b == b'\n').count()), (TEXT, 5442));
    vec![
        (0, 0, whole),
        (0, 0, sixty_four),
        (8, 66, separations(64, "040800\n")),
        (6, 66, separations(64, "040900\n")),
        (7, 66, separations(64, "040000\n")),
        (5, 0, over_size),
        (2, 1, at_size),
    ]
}

fn texts_of(t: &Sheet, random: &mut Random) -> Vec<Case> {
    let d = damaged(t.text(), random);
    let line = random.below(12) as u64;
    let mut short = read_case(t.text(), random);
    let i = 1 + random.below(3);
    let kept = random.below(short.buffers[i].len());
    short.buffers[i].truncate(kept);
    let mut all = vec![read_case(t.text(), random), short, case(REFUSED_LINE, vec![line], vec![d.clone()])];
    all.push(report_case(t.text(), random));
    all.push(report_case(d.clone(), random));
    all.push(read_case(d, random));
    let write = write_case(t, random);
    all.push(spoiled(write.clone(), random));
    all.push(write);
    all
}

// ---- tables

fn counts(t: &Sheet) -> Vec<u64> {
    vec![t.s as u64, t.o as u64, t.r as u64]
}

// A call on the tables of a sheet, with more numbers and more buffers.
fn on_tables(call: u8, t: &Sheet, numbers: Vec<u64>, buffers: Vec<Vec<u8>>, random: &mut Random) -> Case {
    let tables = vec![lent(&t.assignment, ASSIGNMENT, random), lent(&t.permission, PERMISSION, random)];
    case(call, [counts(t), numbers].concat(), [tables, buffers].concat())
}

fn write_case(t: &Sheet, random: &mut Random) -> Case {
    let buffers = vec![lent(&t.pairs(), SEPARATIONS, random), buffer(TEXT, random)];
    on_tables(WRITE, t, vec![t.separations.len() as u64], buffers, random)
}

fn fill_case(t: &Sheet, random: &mut Random) -> Case {
    let flow = buffer(FLOW, random);
    on_tables(FILL, t, vec![], vec![flow], random)
}

fn chain_case(t: &Sheet, x: usize, y: usize, random: &mut Random) -> Case {
    let chain = buffer(CHAIN, random);
    on_tables(SHOWN_CHAIN, t, vec![x as u64, y as u64], vec![chain], random)
}

fn judge_case(t: &Sheet, random: &mut Random) -> Case {
    let buffers = vec![lent(&t.pairs(), SEPARATIONS, random), buffer(CHAIN, random)];
    on_tables(JUDGE, t, vec![t.separations.len() as u64], buffers, random)
}

// The same sheet with separations that hold, but for one now and then.
fn mostly_held(t: &Sheet, random: &mut Random) -> Sheet {
    let mut other = t.clone();
    let flow = t.flow();
    other.separations = some_pairs(t.n(), 64, random);
    other.separations.retain(|&(x, y)| !flow[x as usize][y as usize] || random.one_in(40));
    other
}

// ---- rehearsals

fn rehearsals(t: &Sheet, length: usize, random: &mut Random) -> Vec<Case> {
    let transfers: Vec<u8> = (0..length).flat_map(|_| transfer(t, random)).collect();
    let marks: Vec<u8> = (0..4 * MARKS).map(|_| random.next() as u8).collect();
    let tally = [0, 0, 0].map(|_: u64| if random.one_in(3) { 4_294_963_190 + random.below(12) as u64 } else { random.below(1000) as u64 });
    let buffers = vec![transfers, lent(&marks, 4 * MARKS + random.below(3) * 4, random), buffer(VERDICTS, random)];
    [REHEARSE, REHEARSE_RECORDS].map(|call| on_tables(call, t, tally.to_vec(), buffers.clone(), random)).to_vec()
}

// One byte changed: the call, and the sheet that it should leave.
fn change_case(t: &Sheet, random: &mut Random) -> (Case, Sheet) {
    let mut after = t.clone();
    let assigns = random.one_in(2);
    let (rows, columns, values) = if assigns { (t.s, t.r, 2) } else { (t.r, t.o, 4) };
    let (i, j, value) = (random.below(rows), random.below(columns), random.below(values + 1));
    if i < rows && j < columns && value < values {
        let table = if assigns { &mut after.assignment } else { &mut after.permission };
        table[i * columns + j] = value as u8;
    }
    let call = if assigns { SET_ASSIGNMENT } else { SET_PERMISSION };
    (on_tables(call, t, [i, j, value].map(|n| n as u64).to_vec(), vec![], random), after)
}

// One thing wrong with the numbers, the lengths or the bytes of a case, or nothing where the change happens to be sound.
fn spoiled(mut c: Case, random: &mut Random) -> Case {
    let used = c.buffers.iter().filter(|b| !b.is_empty()).count();
    let i = random.below(used);
    match random.below(6) {
        0 => {
            let kept = random.below(c.buffers[i].len() + 1);
            c.buffers[i].truncate(kept);
        }
        1 | 2 => {
            let wrong = [49, 65, 113, 112, 0, 1 << 32, 1 << 63, u64::MAX, 1 + c.numbers[3]];
            c.numbers[random.below(6)] = wrong[random.below(wrong.len())];
        }
        3 => {
            let b = &mut c.buffers[2.min(used - 1)];
            let front = b.len().min(120);
            if front > 0 {
                b.swap(random.below(front), random.below(front));
            }
        }
        _ => {
            let front = c.buffers[i].len().min(1 + random.below(60));
            if front > 0 {
                c.buffers[i][random.below(front)] = random.next() as u8;
            }
        }
    }
    c
}

// ---- flow tables

fn questions(n: usize, table: &[u8], random: &mut Random) -> Vec<Case> {
    let (x, y) = (random.below(n) as u64, random.below(n) as u64);
    let numbers = vec![n as u64, x, y];
    let mut all: Vec<Case> = [FLOWS, CLASS_NAME, COMPARE, GREATEST].map(|call| case(call, numbers.clone(), vec![table.to_vec()])).to_vec();
    all.push(case(LABEL_OF, numbers, vec![table.to_vec(), buffer(LABEL, random)]));
    all
}

// A table that no filling wrote: 1 on the diagonal and any bits elsewhere.
fn any_table(n: usize, random: &mut Random) -> Vec<u8> {
    let rare = 1 + random.below(5);
    (0..n * n).map(|k| (k / n == k % n || random.one_in(rare)) as u8).collect()
}

fn effect_case(n: usize, before: &[u8], after: &[u8], random: &mut Random) -> Case {
    case(EFFECT_OF, vec![n as u64], vec![lent(before, FLOW, random), lent(after, FLOW, random), buffer(EFFECT, random)])
}

fn row_case(n: usize, before: &[u8], after: &[u8], random: &mut Random) -> Case {
    let numbers = vec![n as u64, random.below(3) as u64, random.below(n + 1) as u64];
    case(CHOSEN_ROW, numbers, vec![lent(before, FLOW, random), lent(after, FLOW, random)])
}

// ---- all calls on a sheet

fn calls_on(t: &Sheet, pairs: usize, random: &mut Random) -> Vec<Case> {
    let n = t.n();
    let (change, changed) = change_case(t, random);
    let (before, after) = (t.flow_bytes(), changed.flow_bytes());
    let mut all = vec![fill_case(t, random), change, effect_case(n, &before, &after, random), row_case(n, &before, &after, random)];
    let (one, other) = (any_table(n, random), any_table(n, random));
    all.push(effect_case(n, &one, &other, random));
    for table in [before, one] {
        all.extend(questions(n, &lent(&table, FLOW, random), random));
    }
    for _ in 0..3 {
        all.push(judge_case(&mostly_held(t, random), random));
    }
    all.push(judge_case(t, random));
    let length = random.below(40);
    all.extend(rehearsals(t, length, random));
    let one_wrong: Vec<Case> = all.iter().map(|c| spoiled(c.clone(), random)).collect();
    all.extend(one_wrong);
    for i in 0..pairs {
        let c = chain_case(t, random.below(n), random.below(n), random);
        if i % 4 == 0 {
            all.push(spoiled(c.clone(), random));
        }
        all.push(c);
    }
    all.extend(texts_of(t, random));
    all
}

// Sheets made for one sentence of document 01 each.
fn made_sheets() -> Vec<Sheet> {
    // the only chain, from object 0 to object 1, needs two roles of one subject
    let mut two_roles = Sheet::blank(1, 2, 2);
    two_roles.assignment = vec![1, 1];
    two_roles.permission = vec![1, 0, 0, 2];
    // a role that no subject has makes no channel
    let mut nobodys = Sheet::blank(2, 1, 1);
    nobodys.permission = vec![3];
    let mut all = vec![two_roles, nobodys, largest()];
    for (s, o, r) in [(0, 0, 0), (0, 3, 2), (3, 0, 2), (3, 3, 0), (48, 0, 48), (0, 64, 48), (48, 64, 0), (48, 64, 48)] {
        all.push(Sheet::blank(s, o, r));
    }
    all
}

// A mode changed from 1 to 2: some label gains and another loses. No single change makes one label do both, but two changes can: a
// subject that reads another object in place of the first.
fn gains_and_loses(random: &mut Random) -> Vec<Case> {
    let mut t = Sheet::blank(2, 2, 2);
    t.assignment = vec![1, 0, 0, 1];
    t.permission = vec![1, 0, 3, 0];
    let mut turned = t.clone();
    turned.permission[0] = 2;
    let mut moved = t.clone();
    moved.permission[0] = 0;
    moved.permission[1] = 1;
    let turn = effect_case(4, &t.flow_bytes(), &turned.flow_bytes(), random);
    let other = effect_case(4, &t.flow_bytes(), &moved.flow_bytes(), random);
    assert_eq!(turn.expected().buffers[2][..4], [2, 1, 1, 0]);
    assert_eq!(other.expected().buffers[2][..4], [3, 0, 0, 0]);
    vec![on_tables(SET_PERMISSION, &t, vec![0, 0, 2], vec![], random), turn, on_tables(SET_PERMISSION, &t, vec![0, 1, 1], vec![], random), other]
}

// The sizes at which a rehearsal just passes or is just refused.
fn rehearsal_limits(random: &mut Random) -> Vec<Case> {
    let mut t = Sheet::blank(1, 1, 1);
    t.assignment = vec![1];
    t.permission = vec![2];
    let mut all = vec![];
    for length in [0, 1, 4096, 4097] {
        all.extend(rehearsals(&t, length, random));
    }
    for i in 0..3 {
        for (count, answer) in [(4_294_963_199, 0), (4_294_963_200, 17), (4_294_967_295, 17)] {
            for mut c in rehearsals(&t, 4096, random) {
                c.numbers = [1, 1, 1, 0, 0, 0];
                c.numbers[3 + i] = count;
                assert_eq!(c.expected().numbers[0], answer);
                all.push(c);
            }
        }
    }
    for extra in 1..3 {
        let mut c = rehearsals(&t, 5, random).remove(0);
        c.numbers = [1, 1, 1, u64::MAX, 0, 0];
        c.buffers[2].resize(15 + extra, 0);
        assert_eq!(c.expected().numbers[0], 15);
        all.push(c);
    }
    all
}

// Points 10 to 13 of document 01, as it prints them.
fn worked_points(random: &mut Random) -> Vec<Case> {
    let sheet = read_text(b"01030304\n020000\n020101\n020202\n03000002\n03010001\n03010102\n03020201\n03030101\n03030202\n040004\n040402\n05000c\n").unwrap();
    let forth = [0, 0, 2, 1, 0, 1, 1, 1, 2];
    let back = [1, 1, 2, 1, 0, 1, 0, 0, 2];
    let points: [(&[u8], [u32; 6], [u32; 6], u64); 4] = [
        (&forth, [7, 0, 0, 0, 0, 0], [7, 7, 0, 7, 7, 0], 3),
        (&back, [7, 0, 0, 0, 0, 0], [7, 0, 0, 7, 0, 0], 3),
        (&[0, 0, 2], [4_294_967_295, 0, 0, 2, 0, 0], [4_294_967_295, 0, 0, 1, 0, 0], 1),
        (&[0, 1, 2], [7, 0, 0, 0, 0, 0], [7, 0, 0, 0, 0, 0], 0),
    ];
    let bytes = |marks: [u32; 6]| marks.iter().flat_map(|m| m.to_be_bytes()).collect::<Vec<u8>>();
    let mut all = vec![];
    for (transfers, before, after, applied) in points {
        for call in [REHEARSE, REHEARSE_RECORDS] {
            let buffers = vec![transfers.to_vec(), lent(&bytes(before), 4 * MARKS, random), buffer(VERDICTS, random)];
            let c = on_tables(call, &sheet, vec![0, 0, 0], buffers, random);
            let e = c.expected();
            assert_eq!((e.numbers[1], &e.buffers[3][..24]), (applied, &bytes(after)[..]));
            all.push(c);
        }
    }
    all
}

// A faulty pair after a broken separation still refuses, and 64 separations that hold are all judged.
fn judged_lists(random: &mut Random) -> Vec<Case> {
    let mut all = vec![];
    for (pairs, answer) in [(vec![(0, 0), (0, 0), (200, 0)], 7), (vec![(0, 0), (0, 16)], 6), (vec![(0, 0), (0, 0)], 7), (vec![(1, 1), (0, 1)], 7), (vec![(0, 0), (16, 0), (0, 0)], 6)] {
        let mut t = Sheet::blank(8, 8, 1);
        t.separations = pairs;
        let c = judge_case(&t, random);
        assert_eq!(c.expected().numbers[0], answer);
        all.push(c);
    }
    let mut t = Sheet::blank(9, 0, 0);
    t.separations = (0..81).map(|i| (i / 9, i % 9)).filter(|(x, y)| x != y).take(64).collect();
    let holds = judge_case(&t, random);
    assert_eq!(holds.expected().numbers[..3], [0, 0, 0]);
    t.separations[63] = (8, 8);
    let last = judge_case(&t, random);
    assert_eq!(last.expected().numbers[..3], [14, 63, 1]);
    all.extend([holds, last]);
    all
}

fn random_cases(seed: u64, count: usize) -> Vec<Case> {
    let mut random = Random(seed | 1);
    let r = &mut random;
    let mut all = gains_and_loses(r);
    all.extend(rehearsal_limits(r));
    all.extend(worked_points(r));
    all.extend(judged_lists(r));
    all.push(case(NEW_TALLY, vec![], vec![]));
    for t in made_sheets() {
        all.extend(calls_on(&t, 12, r));
    }
    for _ in 0..count {
        let t = small(r);
        all.extend(calls_on(&t, 12, r));
    }
    for _ in 0..count / 20 {
        let t = full(r);
        all.extend(calls_on(&t, 140, r));
        let length = r.below(4100);
        all.extend(rehearsals(&t, length, r));
        let t = long_chain(&shuffled(48, r), &shuffled(64, r));
        all.extend(calls_on(&t, 140, r));
    }
    let straight: Vec<usize> = (0..64).collect();
    let t = long_chain(&straight[..48], &straight);
    assert_eq!(t.chain(48, 96).unwrap().len(), 97);
    all.push(chain_case(&t, 48, 96, r));
    all.push(fill_case(&t, r));
    let mut longest = t;
    longest.separations = vec![(48, 96)];
    let judged = judge_case(&longest, r);
    assert_eq!(judged.expected().numbers[..3], [14, 0, 97]);
    all.push(judged);
    all.push(report_case(longest.text(), r));
    all.push(case(REFUSED_LINE, vec![u64::MAX], vec![b"ab\nc".to_vec()]));
    all.push(case(REFUSED_LINE, vec![1], vec![vec![]]));
    all
}

// Sheets for chains of calls: with separations of their own, or with some that mostly hold.
fn chained_sheets(count: usize, random: &mut Random) -> Vec<Sheet> {
    let mut all = made_sheets();
    for _ in 0..count / 8 {
        let t = small(random);
        all.push(mostly_held(&t, random));
        all.push(t);
    }
    for _ in 0..count / 80 {
        all.push(full(random));
        let t = long_chain(&shuffled(48, random), &shuffled(64, random));
        all.push(mostly_held(&t, random));
    }
    let straight: Vec<usize> = (0..64).collect();
    let mut longest = long_chain(&straight[..48], &straight);
    longest.separations = vec![(48, 96)];
    all.push(longest);
    all
}

// ---- the run

// Makes the calls of all cases, and counts those that are not answered as they should be.
fn failures(all: &[Case]) -> usize {
    let mut failed = 0;
    for c in all {
        let (got, should) = (made::made(c), c.expected());
        if got.as_ref() != Some(&should) {
            failed += 1;
            if failed <= 5 {
                let lengths = c.buffers.each_ref().map(|b| b.len());
                println!("call {} numbers {:?} lengths {lengths:?}: should answer {:?}, answered {:?}", c.call, c.numbers, should.numbers, got.map(|g| g.numbers));
            }
        }
    }
    failed
}

fn main() {
    let words: Vec<String> = std::env::args().collect();
    let seed = words.get(2).map_or(20261115, |w| w.parse().unwrap());
    let count = words.get(3).map_or(400, |w| w.parse().unwrap());
    let mut random = Random(seed | 1);
    let mut all = vec![];
    let mut sound = vec![];
    for (number, at, text) in listed(&words[1]).into_iter().chain(long_texts()) {
        let c = read_case(text.clone(), &mut random);
        let e = c.expected();
        assert_eq!((e.numbers[0], e.numbers[1]), (number as u64, at as u64), "the listed answer of {:?}", String::from_utf8_lossy(&text));
        all.push(report_case(text.clone(), &mut random));
        all.push(case(REFUSED_LINE, vec![at as u64], vec![text.clone()]));
        all.push(c);
        if number == 0 {
            sound.push(text);
        }
    }
    all.extend(limits::exact_places());
    all.extend(random_cases(seed, count));
    for call in CALLS {
        let (accepted, cases) = all.iter().filter(|c| c.call == call).fold((0, 0), |(a, n), c| (a + (c.expected().numbers[0] == 0) as usize, n + 1));
        println!("call {call}: {cases} cases, {accepted} with answer 0");
        assert!(accepted > 0, "call {call} is only refused");
    }
    let chains = chained::chains(&sound, &chained_sheets(count, &mut random), &mut random);
    for promise in chained::PROMISES {
        let cases = chains.iter().filter(|c| c.promise == promise).count();
        println!("chains of calls, {promise}: {cases} cases");
    }
    let failed = failures(&all) + chained::failures(&chains);
    println!("{} passed, {} failed", all.len() + chains.len() - failed, failed);
    std::process::exit((failed > 0) as i32);
}
