// The outside tests of the program: what `flowsheet` prints for texts from a seed and from a list, compared with an independent
// implementation. usage: program FLOWSHEET TEXTS [SEED [COUNT]]. The last line is 'N passed, M failed'.
#[allow(dead_code)]
mod oracle;
#[allow(dead_code)]
mod sheets;

use oracle::*;
use sheets::*;
use std::fs::{File, OpenOptions};
use std::io::Write;
use std::os::fd::AsRawFd;
use std::process::{Child, ChildStdin, Command, Output, Stdio};
use std::thread::sleep;
use std::time::{Duration, Instant};

fn started(command: &mut Command, input: Stdio, output: Stdio) -> Child {
    command.stdin(input).stdout(output).stderr(Stdio::piped()).spawn().expect("the program")
}

fn feed(child: &mut Child, pieces: &[&[u8]]) {
    if let Some(mut pipe) = child.stdin.take() {
        for piece in pieces {
            // a program that has read enough may have ended
            if pipe.write_all(piece).and_then(|_| pipe.flush()).is_err() {
                break;
            }
        }
    }
}

fn run(program: &str, input: Stdio, pieces: &[&[u8]]) -> Output {
    let mut child = started(&mut Command::new(program), input, Stdio::piped());
    feed(&mut child, pieces);
    child.wait_with_output().expect("its output")
}

// The text in one piece, or in several, which the pipe may join.
fn prints(program: &str, text: &[u8], pieces: usize) -> bool {
    let size = text.len() / pieces + 1;
    let parts: Vec<&[u8]> = text.chunks(size).collect();
    let got = run(program, Stdio::piped(), &parts);
    got.stdout == output(text) && got.stderr.is_empty()
}

// ---- pieces that come one after the other

extern "C" {
    fn ioctl(file: i32, request: u64, ...) -> i32;
}

// How many bytes wait in a pipe: the request FIONREAD.
fn waiting(pipe: &ChildStdin) -> i32 {
    let mut count = 0i32;
    // SAFETY: the request stores one number of this type, and the pipe is open.
    let status = unsafe { ioctl(pipe.as_raw_fd(), 0x541b, &mut count) };
    assert_eq!(status, 0, "what waits in a pipe");
    count
}

// Waits until the program has taken all that is in the pipe, so that what comes next comes by another read. A program that ends or that
// reads no more is not waited for.
fn taken(pipe: &ChildStdin, child: &mut Child) -> bool {
    let start = Instant::now();
    while waiting(pipe) > 0 {
        if start.elapsed() > Duration::from_secs(10) || child.try_wait().expect("its state").is_some() {
            return false;
        }
        sleep(Duration::from_micros(100));
    }
    true
}

// Each piece is one read of the program's. Where one is empty nothing comes for a while.
fn run_slowly(program: &str, pieces: &[&[u8]]) -> Output {
    let mut child = started(&mut Command::new(program), Stdio::piped(), Stdio::piped());
    let mut pipe = child.stdin.take().expect("its input");
    for piece in pieces {
        if piece.is_empty() {
            sleep(Duration::from_millis(5));
        }
        if pipe.write_all(piece).is_err() || !taken(&pipe, &mut child) {
            break;
        }
    }
    drop(pipe);
    child.wait_with_output().expect("its output")
}

// A text cut at these places, which ascend; two that are equal make an empty piece.
fn cut<'a>(text: &'a [u8], places: &[usize]) -> Vec<&'a [u8]> {
    let starts = [&[0], places].concat();
    let ends = [places, &[text.len()]].concat();
    starts.iter().zip(&ends).map(|(&from, &to)| &text[from..to]).collect()
}

// After a single byte; within a line; before a line feed and after it; with an empty piece first, in the middle and last; and into many
// pieces, of a single byte each where the text is short.
fn places(text: &[u8], random: &mut Random) -> Vec<Vec<usize>> {
    let end = text.len();
    let feeds: Vec<usize> = (0..end).filter(|&i| text[i] == b'\n').collect();
    let feed = feeds.get(random.below(feeds.len())).map_or(end, |&feed| feed);
    vec![
        vec![1.min(end)],
        vec![feed.saturating_sub(3)],
        vec![feed, end.min(feed + 1)],
        vec![0, end / 2, end / 2, end],
        (1..end).step_by(1 + end / 17).collect(),
    ]
}

fn prints_slowly(program: &str, text: &[u8], random: &mut Random) -> Vec<bool> {
    let printed = |places: &Vec<usize>| {
        let got = run_slowly(program, &cut(text, places));
        got.stdout == output(text) && got.stderr.is_empty()
    };
    places(text, random).iter().map(printed).collect()
}

// ---- input and output that fail

// A directory cannot be read: nothing is printed, and the reason goes to standard error.
fn failed_read(program: &str) -> bool {
    let got = run(program, File::open("/").expect("a directory").into(), &[]);
    got.stdout.is_empty() && !got.stderr.is_empty()
}

// Endless input is a text over its size.
fn endless(program: &str) -> bool {
    run(program, File::open("/dev/zero").expect("/dev/zero").into(), &[]).stdout == b"80050000\n"
}

// What the program says on standard error of an output that it cannot write to. If it is a pipe, nobody reads it.
fn reason(command: &mut Command, out: Stdio, text: &[u8]) -> Vec<u8> {
    let mut child = started(command, Stdio::piped(), out);
    drop(child.stdout.take());
    feed(&mut child, &[text]);
    child.wait_with_output().expect("what it says").stderr
}

// A device that is full, a file that is open for reading alone, and a pipe that nobody reads, with its signal ignored: the reason goes to
// standard error, and each has its own. The status is not looked at.
fn failed_writes(program: &str, text: &[u8]) -> Vec<bool> {
    let full = OpenOptions::new().write(true).open("/dev/full").expect("/dev/full");
    let closed = File::open("/dev/null").expect("/dev/null");
    let said = [
        reason(&mut Command::new(program), full.into(), text),
        reason(&mut Command::new(program), closed.into(), text),
        reason(Command::new("sh").args(["-c", "trap '' PIPE; exec \"$0\"", program]), Stdio::piped(), text),
    ];
    (0..3).map(|i| !said[i].is_empty() && !said[..i].contains(&said[i])).collect()
}

fn main() {
    let words: Vec<String> = std::env::args().collect();
    let program = words[1].as_str();
    let r = &mut Random(words.get(3).map_or(20261115, |w| w.parse::<u64>().unwrap()) | 1);
    let count: usize = words.get(4).map_or(1000, |w| w.parse().unwrap());
    let mut texts: Vec<Vec<u8>> = listed(&words[2]).into_iter().map(|(_, _, text)| text).collect();
    let listed = texts.len();
    texts.push(largest().text());
    texts.push([largest().text(), b"0".to_vec()].concat());
    let order: Vec<usize> = (0..64).collect();
    let mut longest = long_chain(&order[..48], &order);
    longest.separations = vec![(48, 96)];
    texts.push(longest.text());
    for i in 0..count {
        let t = if i % 20 == 0 { full(r) } else { small(r) };
        texts.push(damaged(t.text(), r));
        texts.push(t.text());
    }
    let mut results: Vec<bool> = texts.iter().map(|text| prints(program, text, 1 + r.below(4))).collect();
    // the worked sheet and other listed texts, those of the largest sizes, and a few from the seed
    let some = texts[1..listed].iter().step_by(4).chain(texts[listed..].iter().take(11));
    for text in some.clone() {
        results.extend(prints_slowly(program, text, r));
    }
    for text in some.step_by(5) {
        results.extend(failed_writes(program, text));
    }
    results.push(failed_read(program));
    results.push(endless(program));
    let failed = results.iter().filter(|ok| !**ok).count();
    println!("{} passed, {} failed", results.len() - failed, failed);
    std::process::exit((failed > 0) as i32);
}
