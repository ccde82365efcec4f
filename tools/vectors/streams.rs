//! Streams of records for pinlog, and what it must print for each by the model (tools/oracle/pinlog.rs). The first argument is the folder of
//! the crates: it writes crates/pinlog/{stdin,stdout} (document 01's example) and crates/logs/{data,stdout}. tools/vectors/make runs it.

#[allow(dead_code)]
#[path = "../oracle/aligner.rs"]
mod aligner;
#[allow(dead_code)]
#[path = "../oracle/ecc.rs"]
mod ecc;
#[allow(dead_code)]
mod lines;
#[path = "../oracle/pinlog.rs"]
mod pinlog;
#[allow(dead_code)]
#[path = "../oracle/pins.rs"]
mod pins;
#[allow(dead_code)]
#[path = "../oracle/rules.rs"]
mod rules;
use lines::Stream;

fn record(kind: usize, body: &[u8]) -> Vec<u8> {
    [&((body.len() + 2) as u32).to_le_bytes()[..], &(kind as u16).to_le_bytes(), body].concat()
}

fn settings(eps: f32, passes: usize, filter: usize, edge: usize) -> Vec<u8> {
    let (eps, passes) = (eps.to_bits().to_le_bytes(), (passes as u32).to_le_bytes());
    record(1, &[&eps[..], &passes, &(filter as u16).to_le_bytes(), &(edge as u32).to_le_bytes()].concat())
}

fn frame(w: usize, h: usize, pixels: &[u8]) -> Vec<u8> {
    record(2, &[&(w as u16).to_le_bytes()[..], &(h as u16).to_le_bytes(), pixels].concat())
}

/// document 01's example
fn example() -> Vec<u8> {
    let f = frame(5, 5, &[7; 25]);
    [settings(0.0001, 10, 1, 0), f.clone(), f, frame(4, 5, &[7; 20])].concat()
}

/// pixels of some sort: noise, nearly flat, stripes, a slope, or the last ones moved by a pixel
fn pixels(s: &mut Stream, w: usize, h: usize, last: &[u8]) -> Vec<u8> {
    let n = w * h;
    let (a, b) = (s.next() as usize % 9, s.next() as usize % 9);
    match s.next() % 6 {
        0 => s.bytes(n),
        1 => (0..n).map(|i| 7 + (i == n / 2) as u8).collect(),
        2 => (0..n).map(|i| (i % w * 10) as u8).collect(),
        3 => (0..n).map(|i| (i % w * a + i / w * b) as u8).collect(),
        4 if last.len() == n => last.to_vec(),
        _ if last.len() == n && n > 1 => [&last[1..], &[last[0] ^ 3]].concat(),
        _ => vec![200; n],
    }
}

/// every number that pinlog can give: frames and settings of all sorts, other kinds and frames too large between them
fn numbers(s: &mut Stream) -> Vec<u8> {
    let mut all = Vec::new();
    let (mut w, mut h, mut last) = (6, 6, Vec::new());
    for i in 0..900 {
        let dice = s.next() % 40;
        if dice == 0 {
            let eps = [1e-4, -1.0, f32::NAN, 0.0, f32::INFINITY][s.next() as usize % 5];
            let passes = [0, 1, 5, 30, 30, 1000, 1001][s.next() as usize % 7];
            let filter = [1, 1, 3, 5, 31, 33, 2, 0][s.next() as usize % 8];
            all.extend(settings(eps, passes, filter, [0, 0, 8, 350, 512][s.next() as usize % 5]));
        } else if dice < 5 {
            (w, h) = (5 + s.next() as usize % 8, 5 + s.next() as usize % 8);
        } else if dice == 5 {
            let body = s.bytes(i % 50);
            all.extend(record([0, 3, 65535][i % 3], &body));
        } else if dice == 6 {
            let body = s.bytes(1029 + i);
            all.extend(record(2, &body));
        } else if dice == 7 {
            let (bad, n) = [((0, 5), 0), ((5, 0), 0), ((0, 0), 0), ((5, 5), 24), ((5, 5), 26), ((4097, 0), 0), ((0, 4097), 0), ((65535, 65535), 9)][i % 8];
            all.extend(frame(bad.0, bad.1, &s.bytes(n)));
        } else if dice == 8 {
            let sides = [(1024, 1), (1, 1024), (32, 32), (1, 1)][i % 4];
            let body = s.bytes(sides.0 * sides.1);
            all.extend(frame(sides.0, sides.1, &body));
            all.extend(frame(sides.0, sides.1, &body));
        } else {
            last = pixels(s, w, h, &last);
            all.extend(frame(w, h, &last));
        }
    }
    all
}

/// one stream for each way a record is broken, after a frame that is answered
fn broken() -> Vec<(String, Vec<u8>)> {
    let head = frame(1, 1, &[9]);
    let mut all: Vec<(String, Vec<u8>)> = Vec::new();
    let mut add = |name: &str, tail: Vec<u8>| all.push((name.to_string(), [head.clone(), tail].concat()));
    add("nothing_more", Vec::new());
    add("one_byte", vec![6]);
    add("three_bytes", vec![6, 0, 0]);
    add("length_alone", vec![6, 0, 0, 0]);
    add("half_a_kind", vec![6, 0, 0, 0, 2]);
    add("length_0", [0, 0, 0, 0, 2, 0].to_vec());
    add("length_1", [1, 0, 0, 0, 2, 0].to_vec());
    add("settings_of_13", [record(1, &[0; 13]), head.clone()].concat());
    add("settings_of_15", [record(1, &[0; 15]), head.clone()].concat());
    add("settings_cut", settings(0.1, 1, 1, 0)[..19].to_vec());
    add("frame_of_3", [record(2, &[1, 0, 1]), head.clone()].concat());
    add("frame_of_0", [record(2, &[]), head.clone()].concat());
    add("frame_cut", frame(3, 3, &[1; 9])[..18].to_vec());
    add("large_cut", record(2, &[1; 3000])[..3005].to_vec());
    add("large_whole", record(2, &[1; 3000]));
    add("other_cut", record(9, &[1; 20])[..25].to_vec());
    add("other_empty", record(9, &[]));
    all.push(("empty".to_string(), Vec::new()));
    all
}

/// streams longer than a buffer of 64 KiB: one whose last read brings a single byte, the last of its last record, and one whose lines take more
/// than 64 KiB though its records do not
fn long() -> Vec<(String, Vec<u8>)> {
    let head = frame(1, 1, &[9]);
    let rest = 65537 - head.len() - 6;
    let one_byte = [head, record(9, &vec![0; rest])].concat();
    assert!(one_byte.len() == 65537);
    let lines: Vec<u8> = (0..4600).flat_map(|_| frame(0, 0, &[])).collect();
    assert!(lines.len() < 65536 && pinlog::log(&lines).len() > 65536);
    vec![("one_byte_last".to_string(), one_byte), ("many_lines".to_string(), lines)]
}

fn main() {
    let crates = std::env::args().nth(1).expect("the folder of the crates");
    let write = |name: &str, bytes: &[u8]| std::fs::write(format!("{}/{}", crates, name), bytes).unwrap();
    write("pinlog/stdin", &example());
    write("pinlog/stdout", pinlog::log(&example()).as_bytes());
    let mut streams = vec![("numbers".to_string(), numbers(&mut Stream(20260105)))];
    streams.extend(broken());
    streams.extend(long());
    let mut text = String::new();
    for (name, bytes) in &streams {
        write(&format!("logs/data/{}.rec", name), bytes);
        text += &format!("{}\n{}", name, pinlog::log(bytes));
    }
    write("logs/stdout", text.as_bytes());
    let mut counts = [0; 14];
    pinlog::log(&streams[0].1).lines().filter(|l| !l.starts_with("done")).for_each(|l| counts[l.split(' ').nth(1).unwrap().parse::<usize>().unwrap()] += 1);
    counts.iter().enumerate().for_each(|(number, count)| eprintln!("frames that pinlog answers with {}: {}", number, count));
    assert!(counts.iter().enumerate().all(|(number, count)| *count > 0 || number == 7), "a number is missing");
}
