//! How fast the proved reader and writer of texts are beside plain safe ones in Rust, in one process: the same texts and rows, the same answers, nanoseconds of each.
//! And how long the proved reader is busy with texts made to keep it busy; a plain recursive reader would not come back from them.

#[path = "../answer.rs"]
mod answer;
#[allow(dead_code)]
#[path = "../check/plain.rs"]
mod plain;
#[path = "plain.rs"]
mod plain_text;
#[path = "../random.rs"]
mod random;
#[path = "../check/rows.rs"]
mod rows;

use answer::Answer;
use plain_text::{Reader, Refusal, Writer};
use random::Random;
use std::hint::black_box;
use std::time::Instant;

/// The most bytes that a row has, and more than any text of a row has.
const MOST_ROW: usize = 32_774;
const MOST_TEXT: usize = 65_536;

/// The word of out, and the bytes of what is lent, before a call.
const UNTOUCHED: u64 = u64::MAX;
const FILL: u8 = 0xA5;

extern "C" {
    // A lent slice passes as a pointer and a length, a lent array as a pointer.
    fn rigvanesh_read(text: *const u8, bytes: usize, m: u64, room: *mut u8, room_bytes: usize, out: *mut [u64; 1]) -> Answer;
    fn rigvanesh_write(row: *const u8, bytes: usize, buffer: *mut u8, room: usize, out: *mut [u64; 1]) -> Answer;
}

fn our_read(text: &[u8], m: u64, room: &mut [u8], out: &mut [u64; 1]) -> Answer {
    unsafe { rigvanesh_read(text.as_ptr(), text.len(), m, room.as_mut_ptr(), room.len(), out) }
}

fn our_write(row: &[u8], buffer: &mut [u8], out: &mut [u64; 1]) -> Answer {
    unsafe { rigvanesh_write(row.as_ptr(), row.len(), buffer.as_mut_ptr(), buffer.len(), out) }
}

/// The answer of the plain reader or writer in the same numbers; a refusal leaves the word as it was.
fn in_numbers(answer: Result<usize, Refusal>) -> (Answer, [u64; 1]) {
    match answer {
        Ok(length) => (Answer { number: 0, also: 0 }, [length as u64]),
        Err(Refusal(number, also)) => (Answer { number: number as u64, also: also as u64 }, [UNTOUCHED]),
    }
}

/// A text with m, and a row.
type Text = (Vec<u8>, u64);

/// Checks that both read alike into a room of this many bytes, and leave alike what they don't write.
fn compare_read(reader: &mut Reader, text: &Text, bytes: usize) -> u64 {
    let (mut ours, mut theirs, mut out) = (vec![FILL; bytes], vec![FILL; bytes], [UNTOUCHED]);
    let answer = our_read(&text.0, text.1, &mut ours, &mut out);
    assert_eq!((answer, out), in_numbers(reader.read(&text.0, text.1, &mut theirs)), "{}", String::from_utf8_lossy(&text.0));
    assert!(ours == theirs, "{}", String::from_utf8_lossy(&text.0));
    answer.number
}

fn compare_write(writer: &mut Writer, row: &[u8], bytes: usize) -> u64 {
    let (mut ours, mut theirs, mut out) = (vec![FILL; bytes], vec![FILL; bytes], [UNTOUCHED]);
    let answer = our_write(row, &mut ours, &mut out);
    assert_eq!((answer, out), in_numbers(writer.write(row, &mut theirs)), "{row:?}");
    assert!(ours == theirs, "{row:?}");
    answer.number
}

/// Seconds of one pass over all.
fn time<T>(all: &[T], mut one: impl FnMut(&T) -> u64) -> f64 {
    let start = Instant::now();
    let mut sum = 0u64;
    for each in all {
        sum = sum.wrapping_add(one(black_box(each)));
    }
    black_box(sum);
    start.elapsed().as_secs_f64()
}

fn report(name: &str, count: usize, refused: usize, bytes: usize, [ours, plain]: [f64; 2]) {
    println!(
        "{name:<28} {count:>8} {refused:>8} {:>8} {:>12.0} {:>12.0} {:>10.1} {:>10.1} {:>10.2}",
        bytes / count,
        1e9 * ours / count as f64,
        1e9 * plain / count as f64,
        bytes as f64 / ours / 1e6,
        bytes as f64 / plain / 1e6,
        plain / ours
    );
}

fn bench_reading(name: &str, texts: &[Text], rounds: usize) {
    let mut reader = Reader::new();
    let refused = texts.iter().filter(|text| compare_read(&mut reader, text, MOST_ROW) != 0).count();
    let (mut room, mut out) = (vec![0; MOST_ROW], [0]);
    let mut best = [f64::MAX; 2];
    for _ in 0..rounds {
        best[0] = best[0].min(time(texts, |(text, m)| our_read(text, *m, &mut room, &mut out).number + out[0] + room[9] as u64));
        best[1] = best[1].min(time(texts, |(text, m)| reader.read(text, *m, &mut room).map_or(1, |length| length as u64) + room[9] as u64));
    }
    report(name, texts.len(), refused, texts.iter().map(|text| text.0.len()).sum(), best);
}

/// Into buffers of `spare` bytes more than the text has, as far as there are so many.
fn bench_writing(name: &str, rows: &[Vec<u8>], spare: usize, rounds: usize) {
    let mut writer = Writer::new();
    let refused = rows.iter().filter(|row| compare_write(&mut writer, row, MOST_TEXT) != 0).count();
    let (mut buffer, mut out) = (vec![0; MOST_TEXT], [0]);
    let lengths: Vec<usize> = rows.iter().map(|row| writer.write(row, &mut buffer).unwrap_or(0)).collect();
    let bytes = lengths.iter().sum();
    let rows: Vec<(&[u8], usize)> = rows.iter().zip(&lengths).map(|(row, length)| (&row[..], MOST_TEXT.min(length + spare))).collect();
    let rows = &rows[..];
    let mut best = [f64::MAX; 2];
    for _ in 0..rounds {
        best[0] = best[0].min(time(rows, |&(row, room)| our_write(row, &mut buffer[..room], &mut out).number + out[0]));
        best[1] = best[1].min(time(rows, |&(row, room)| writer.write(row, &mut buffer[..room]).map_or(1, |length| length as u64)));
    }
    report(name, rows.len(), refused, bytes, best);
}

/// The text of a row that has one.
fn text_of(row: &[u8]) -> Option<Text> {
    let mut buffer = vec![0; MOST_TEXT];
    let length = Writer::new().write(row, &mut buffer).ok()?;
    buffer.truncate(length);
    Some((buffer, row[3] as u64))
}

/// A byte changed, dropped, doubled or cut off, a number made longer, or another m.
fn spoil(random: &mut Random, (text, m): &mut Text) {
    let at = random.below(text.len());
    match random.below(8) {
        0 => text[at] = random.pick(b"()!-0123456789l skiptruefalswhn+>=;:"),
        1 => drop(text.remove(at)),
        2 => text.insert(at, text[at]),
        3 => text.truncate(at),
        4 => *m = 60 + random.below(10) as u64,
        _ => {
            let digits: Vec<usize> = (0..text.len()).filter(|&at| text[at].is_ascii_digit() && text[at] != b'0').collect();
            if let Some(&at) = digits.get(random.below(digits.len().max(1))) {
                let count = 1 + random.below(12);
                text.splice(at..at, (0..count).map(|k| b'1' + (k % 9) as u8));
            }
        }
    }
}

/// The texts of the rows that have one.
fn texts(rows: &[Vec<u8>]) -> Vec<Text> {
    rows.iter().filter_map(|row| text_of(row)).collect()
}

/// The same, one in 40 spoilt.
fn some_spoilt(random: &mut Random, texts: &[Text]) -> Vec<Text> {
    let mut texts = texts.to_vec();
    texts.iter_mut().skip(39).step_by(40).for_each(|text| spoil(random, text));
    texts
}

/// Rows and texts that are mostly refused, for the comparison alone: with much room, and with just too little.
fn compare_odd(random: &mut Random, count: usize) {
    let (mut reader, mut writer) = (Reader::new(), Writer::new());
    let (mut read, mut written) = (vec![0; 54], vec![0; 54]);
    for _ in 0..count {
        let size = 1 + random.below(60);
        let bad = rows::bad(random, size);
        let room = random.pick(&[MOST_TEXT, 0, 100, 8 * size]);
        written[compare_write(&mut writer, &bad, room) as usize] += 1;
        let mut text = text_of(&rows::good(random, size)).unwrap();
        let room = random.pick(&[MOST_ROW, 6 + 8 * size, 5 + 8 * size, 0]);
        (0..1 + random.below(2)).for_each(|_| if !text.0.is_empty() { spoil(random, &mut text) });
        read[compare_read(&mut reader, &text, room) as usize] += 1;
    }
    let seen = |codes: &[usize]| codes.iter().enumerate().filter(|(_, &k)| k > 0).map(|(c, k)| format!("{c}: {k}")).collect::<Vec<_>>().join(", ");
    println!("{count} spoilt texts read alike; code: texts  {}", seen(&read));
    println!("{count} damaged or ill-typed rows written alike; code: rows  {}", seen(&written));
}

/// One text that is made to keep a reader busy, and its answer.
fn hostile(name: &str, text: &[u8], number: u64, also: u64) {
    let mut room = vec![FILL; MOST_ROW];
    let mut out = [UNTOUCHED];
    let mut best = f64::MAX;
    for _ in 0..3 {
        let start = Instant::now();
        let answer = our_read(black_box(text), 64, &mut room, &mut out);
        best = best.min(start.elapsed().as_secs_f64());
        assert_eq!(answer, Answer { number, also }, "{name}");
        assert!(out == [UNTOUCHED] && room.iter().all(|&byte| byte == FILL), "{name}");
    }
    println!("{name:<44} {:>10} {number:>8} {:>10.1} {:>10.1}", text.len(), 1e3 * best, text.len() as f64 / best / 1e6);
}

/// So many forms around a 1.
fn nest(open: &str, close: &str, depth: usize) -> Vec<u8> {
    [open.repeat(depth), "1".to_string(), close.repeat(depth)].concat().into_bytes()
}

fn hostile_texts() {
    let million = 1_000_000;
    println!("{:<44} {:>10} {:>8} {:>10} {:>10}", "text", "bytes", "refused", "ours ms", "ours MB/s");
    hostile("10 MB of open brackets", &vec![b'('; 10 * million], 50, 10 * million as u64);
    let whole = nest("(", " + 1)", million);
    hostile("a million sums, to the left", &whole, 5, 0);
    hostile("the same without its last bracket", &whole[..whole.len() - 1], 50, whole.len() as u64 - 1);
    hostile("a million sums, to the right", &nest("(1 + ", ")", million), 5, 0);
    hostile("a million assignments", &nest("(l63 := ", ")", million), 5, 0);
    hostile("4,095 assignments", &nest("(l63 := ", ")", 4095), 9, 0);
    hostile("a million ifs in the test", &nest("(if ", " then 1 else 1)", million), 5, 0);
    hostile("an integer of 10 MB", &vec![b'7'; 10 * million], 51, 0);
    hostile("a location of 10 MB", &[b"!l".to_vec(), vec![b'7'; 10 * million]].concat(), 52, 2);
    hostile("an integer of 10 MB, and a byte more", &[vec![b'7'; 10 * million], b" ".to_vec()].concat(), 50, 10 * million as u64);
}

fn main() {
    let mut random = Random(2026);
    compare_odd(&mut random, 20_000);
    println!(
        "{:<28} {:>8} {:>8} {:>8} {:>12} {:>12} {:>10} {:>10} {:>10}",
        "set", "count", "refused", "bytes", "ours ns", "Rust ns", "ours MB/s", "Rust MB/s", "ours/Rust"
    );
    let small = rows::rows(&mut random, 11_000, 20, 60);
    let large = rows::rows(&mut random, 200, 4096, 4096);
    let small_texts = texts(&small);
    let large_texts = texts(&large);
    bench_reading("read, 20 to 60 nodes", &small_texts, 100);
    bench_reading("the same, one in 40 spoilt", &some_spoilt(&mut random, &small_texts), 100);
    bench_reading("read, 4,096 nodes", &large_texts, 100);
    bench_reading("the same, one in 40 spoilt", &some_spoilt(&mut random, &large_texts), 100);
    bench_writing("write, 20 to 60 nodes", &small, MOST_TEXT, 100);
    bench_writing("the same, no byte to spare", &small, 0, 100);
    bench_writing("write, 4,096 nodes", &large, MOST_TEXT, 100);
    bench_writing("the same, no byte to spare", &large, 0, 100);
    hostile_texts();
}
