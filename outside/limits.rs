// Exact places: for each call a sound case whose buffers have just their least lengths, and its faults in the order of document 01. Each
// fault alone gives its number, and of each two the earlier one's.
use crate::cases::*;
use crate::oracle::*;

type Fault = (u64, Box<dyn Fn(&mut Case)>);

fn fault(number: u64, make: impl Fn(&mut Case) + 'static) -> Fault {
    (number, Box::new(make))
}

// 1: the buffer has one byte less than its least length. Marks are numbers of four bytes.
fn shorter(i: usize, least: usize) -> Fault {
    fault(1, move |c| c.buffers[i].truncate(least - 1))
}

fn number(n: u64, i: usize, value: u64) -> Fault {
    fault(n, move |c| c.numbers[i] = value)
}

fn byte(n: u64, i: usize, at: usize, value: u8) -> Fault {
    fault(n, move |c| c.buffers[i][at] = value)
}

fn exact(part: &[u8], least: usize) -> Vec<u8> {
    let mut buffer = part.to_vec();
    buffer.resize(least, 7);
    buffer
}

// Two subjects, two objects and two roles.
fn sheet() -> Sheet {
    let mut t = Sheet::blank(2, 2, 2);
    t.assignment = vec![1, 0, 0, 1];
    t.permission = vec![2, 0, 1, 2];
    t.separations = vec![(1, 0), (1, 1)];
    t
}

// A call on the tables of that sheet.
fn on_tables(call: u8, numbers: &[u64], buffers: Vec<Vec<u8>>) -> Case {
    let t = sheet();
    let tables = vec![exact(&t.assignment, ASSIGNMENT), exact(&t.permission, PERMISSION)];
    case(call, [&[2, 2, 2], numbers].concat(), [tables, buffers].concat())
}

// 1, then 5, then 11, with what the call itself is refused for by 1 and 5, and then its own.
fn table_faults(short: Vec<Fault>, long: Vec<Fault>, own: Vec<Fault>) -> Vec<Fault> {
    let mut all = vec![shorter(0, ASSIGNMENT), shorter(1, PERMISSION)];
    all.extend(short);
    all.extend([number(5, 0, 49), number(5, 1, 65), number(5, 2, 49)]);
    all.extend(long);
    all.extend([byte(11, 0, 0, 2), byte(11, 1, 0, 4)]);
    all.extend(own);
    all
}

// 8, and then 6 before 7 of one pair.
fn separation_faults() -> Vec<Fault> {
    vec![number(8, 3, 65), byte(6, 2, 3, 200), byte(7, 2, 2, 0)]
}

fn calls_on_tables() -> Vec<(Case, Vec<Fault>)> {
    let pairs = exact(&sheet().pairs(), SEPARATIONS);
    let transfers = vec![0, 0, 2, 1, 1, 2];
    let rehearsed = vec![transfers, vec![3; 4 * MARKS], vec![7; VERDICTS]];
    let rehearsal_short = || vec![shorter(3, 4 * MARKS), shorter(4, VERDICTS)];
    let full = || vec![number(17, 3, 4_294_963_200), number(17, 4, 4_294_963_200), number(17, 5, 4_294_967_295)];
    let list = |length: usize| fault(5, move |c| c.buffers[2].resize(length, 0));
    let ragged = fault(15, |c| c.buffers[2].push(0));
    vec![
        (on_tables(WRITE, &[2], vec![pairs.clone(), vec![7; TEXT]]), table_faults(vec![shorter(2, SEPARATIONS), shorter(3, TEXT)], vec![], separation_faults())),
        (on_tables(JUDGE, &[2], vec![pairs, vec![7; CHAIN]]), table_faults(vec![shorter(2, SEPARATIONS), shorter(3, CHAIN)], vec![], separation_faults())),
        (on_tables(FILL, &[], vec![vec![7; FLOW]]), table_faults(vec![shorter(2, FLOW)], vec![], vec![])),
        (on_tables(SHOWN_CHAIN, &[0, 0], vec![vec![7; CHAIN]]), table_faults(vec![shorter(2, CHAIN)], vec![], vec![number(10, 3, 112), number(10, 4, 112)])),
        (on_tables(SET_ASSIGNMENT, &[1, 1, 1], vec![]), table_faults(vec![], vec![], vec![number(6, 3, 48), number(6, 4, 48), number(6, 5, 2)])),
        (on_tables(SET_PERMISSION, &[1, 1, 3], vec![]), table_faults(vec![], vec![], vec![number(6, 3, 48), number(6, 4, 64), number(6, 5, 4)])),
        (
            on_tables(REHEARSE, &[0, 0, 0], rehearsed.clone()),
            table_faults(rehearsal_short(), vec![list(12_289), list(12_290), list(12_291)], [vec![ragged], full()].into_iter().flatten().collect()),
        ),
        (on_tables(REHEARSE_RECORDS, &[0, 0, 0], rehearsed), table_faults(rehearsal_short(), vec![list(3 * 4097)], full())),
    ]
}

fn calls_on_flow() -> Vec<(Case, Vec<Fault>)> {
    let table = exact(&sheet().flow_bytes(), FLOW);
    let mut all = vec![];
    for call in [FLOWS, LABEL_OF, CLASS_NAME, COMPARE, GREATEST] {
        let mut faults = vec![shorter(0, FLOW)];
        let mut buffers = vec![table.clone()];
        if call == LABEL_OF {
            faults.push(shorter(1, LABEL));
            buffers.push(vec![7; LABEL]);
        }
        faults.extend([number(5, 0, 113), byte(12, 0, 1, 2), byte(12, 0, 0, 0), number(10, 1, 112)]);
        if matches!(call, FLOWS | COMPARE) {
            faults.push(number(10, 2, 112));
        }
        all.push((case(call, vec![4, 1, 2], buffers), faults));
    }
    let faults = vec![
        shorter(0, FLOW),
        shorter(1, FLOW),
        shorter(2, EFFECT),
        number(5, 0, 113),
        byte(12, 0, 1, 2),
        byte(12, 0, 0, 0),
        byte(12, 1, 1, 2),
        byte(12, 1, 0, 0),
    ];
    all.push((case(EFFECT_OF, vec![4], vec![table.clone(), table, vec![7; EFFECT]]), faults));
    all
}

// Reading: 1, then 5 for the text's length, then the first faulty line.
fn reading() -> (Case, Vec<Fault>) {
    let base = case(READ, vec![], vec![sheet().text(), vec![7; ASSIGNMENT], vec![7; PERMISSION], vec![7; SEPARATIONS]]);
    let tables = vec![shorter(1, ASSIGNMENT), shorter(2, PERMISSION), shorter(3, SEPARATIONS)];
    let text = vec![fault(5, |c| c.buffers[0].resize(TEXT + 1, b'0')), byte(2, 0, 0, b'z'), byte(3, 0, 1, b'9')];
    (base, tables.into_iter().chain(text).collect())
}

// A row that a bad choice, number, count or length does not give.
fn rows() -> Vec<Case> {
    let table = exact(&sheet().flow_bytes(), FLOW);
    let base = case(CHOSEN_ROW, vec![4, 1, 2], vec![table.clone(), table]);
    assert_eq!(base.expected().numbers[..4], [0, 1, 8, 4]);
    let faults = [shorter(0, FLOW), shorter(1, FLOW), number(0, 0, 113), number(0, 1, 2), number(0, 2, 4)];
    let mut all = vec![base.clone()];
    for (_, make) in &faults {
        let mut c = base.clone();
        make(&mut c);
        assert_eq!(c.expected().numbers[..4], [0, 0, 0, 0]);
        all.push(c);
    }
    all
}

// Where N, choice, x or a length is bad the row is the empty part at the start of the before table, be a table empty or not.
fn no_rows() -> Vec<Case> {
    const MOST: u64 = u64::MAX;
    let bad = [[0, 0, 0], [0, 1, 0], [4, 2, 2], [4, MOST, 2], [4, 0, 4], [4, 1, 4], [112, 0, 112], [112, 1, MOST], [113, 0, 0], [113, 1, 0], [MOST, 1, 0]];
    let good = [[4, 0, 0], [4, 1, 0], [4, 1, 3], [112, 0, 111], [112, 1, 111]];
    let mut all = vec![];
    for (before, after) in [(FLOW, FLOW), (FLOW - 1, FLOW), (FLOW, FLOW - 1), (0, FLOW), (FLOW, 0), (0, 0)] {
        let more: &[[u64; 3]] = if (before, after) == (FLOW, FLOW) { &[] } else { &good };
        for numbers in bad.iter().chain(more) {
            let c = case(CHOSEN_ROW, numbers.to_vec(), vec![vec![1; before], vec![1; after]]);
            assert_eq!(c.expected().numbers[..4], [0, 0, 0, 0]);
            all.push(c);
        }
    }
    all
}

// Lines of a text that are an empty part, and where it lies: an empty line at its own place, and no such line at the text's end.
fn empty_lines() -> Vec<Case> {
    let texts: [(&[u8], &[(u64, u64)]); 7] = [
        (b"", &[(0, 0), (1, 0), (2, 0), (u64::MAX, 0)]),
        (b"\n", &[(0, 1), (1, 0), (2, 1), (3, 1)]),
        (b"\n\n", &[(0, 2), (1, 0), (2, 1), (3, 2)]),
        (b"ab", &[(0, 2), (2, 2), (u64::MAX, 2)]),
        (b"ab\n", &[(0, 3), (2, 3), (3, 3)]),
        (b"\nab\n\n\ncd", &[(0, 8), (1, 0), (3, 4), (4, 5), (6, 8)]),
        (b"ab\n\ncd\n\n", &[(0, 8), (2, 3), (4, 7), (5, 8), (6, 8)]),
    ];
    let mut all = vec![];
    for (text, lines) in texts {
        for &(line, place) in lines {
            let c = case(REFUSED_LINE, vec![line], vec![text.to_vec()]);
            assert_eq!(c.expected().numbers[..4], [0, 0, place, 0], "line {line} of {text:?}");
            all.push(c);
        }
    }
    all
}

// The output's buffer, and the line of a number far on, in a text of any length.
fn others() -> Vec<Case> {
    let mut all = vec![];
    for (least, answer) in [(OUTPUT - 1, 1), (OUTPUT, 0)] {
        let c = case(REPORT, vec![], vec![sheet().text(), vec![7; least]]);
        assert_eq!(c.expected().numbers[0], answer);
        all.push(c);
    }
    let mut whole = crate::sheets::largest().text();
    for k in [1, 2, 12, 100, 5441, 5442, 5443, u64::MAX] {
        all.push(case(REFUSED_LINE, vec![k], vec![whole.clone()]));
    }
    whole.extend(b"0405\n04");
    for k in [5443, 5444, 5445] {
        all.push(case(REFUSED_LINE, vec![k], vec![whole.clone()]));
    }
    all
}

pub fn exact_places() -> Vec<Case> {
    let mut all = rows();
    all.extend(no_rows());
    all.extend(empty_lines());
    all.extend(others());
    let mut bases = calls_on_tables();
    bases.extend(calls_on_flow());
    bases.push(reading());
    for (base, faults) in &bases {
        assert!(matches!(base.expected().numbers[0], 0 | 14), "call {} is refused without a fault", base.call);
        all.push(base.clone());
        for (i, (number, make)) in faults.iter().enumerate() {
            let mut one = base.clone();
            make(&mut one);
            assert_eq!(one.expected().numbers[0], *number, "call {}, fault {i}", base.call);
            for (j, (_, also)) in faults.iter().enumerate().skip(i + 1) {
                // of two lengths of one buffer the later one would undo the earlier
                let mut both = base.clone();
                also(&mut both);
                make(&mut both);
                assert_eq!(both.expected().numbers[0], *number, "call {}, faults {i} and {j}", base.call);
                all.push(both);
            }
            all.push(one);
        }
    }
    all
}
