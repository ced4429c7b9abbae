//! Compares the proved library, through its two C functions, with `plain`: first the answers, then the time.

mod plain;

use plain::FIELDS;
use std::hint::black_box;
use std::time::Instant;

#[link(name = "capi", kind = "static")]
unsafe extern "C" {
    fn gs_read_frame(octets: *const u8, octet_count: usize, fields: *mut u64, field_count: usize) -> u64;
    fn gs_write_frame(fields: *const u64, field_count: usize, buffer: *mut u8, buffer_size: usize) -> u64;
}

fn proved_read(octets: &[u8], fields: &mut [u64]) -> u64 {
    unsafe { gs_read_frame(octets.as_ptr(), octets.len(), fields.as_mut_ptr(), fields.len()) }
}

fn proved_write(fields: &[u64], buffer: &mut [u8]) -> u64 {
    unsafe { gs_write_frame(fields.as_ptr(), fields.len(), buffer.as_mut_ptr(), buffer.len()) }
}

/// A generator of numbers from a seed, so that every run has the same frames.
struct Random(u64);

impl Random {
    fn next(&mut self) -> u64 {
        self.0 = self.0.wrapping_add(0x9E37_79B9_7F4A_7C15);
        let mut z = self.0;
        z = (z ^ (z >> 30)).wrapping_mul(0xBF58_476D_1CE4_E5B9);
        z = (z ^ (z >> 27)).wrapping_mul(0x94D0_49BB_1331_11EB);
        z ^ (z >> 31)
    }

    fn below(&mut self, limit: u64) -> u64 {
        self.next() % limit
    }

    fn from(&mut self, low: u64, high: u64) -> u64 {
        low + self.below(high - low + 1)
    }
}

const TYPES: [(u64, &str); 12] = [
    (0x00, "paging"),
    (0x01, "paging failure"),
    (0x02, "mobile status"),
    (0x06, "LU request"),
    (0x07, "LU accept"),
    (0x08, "LU reject"),
    (0x09, "reset"),
    (0x0A, "reset ack"),
    (0x0E, "GPRS detach"),
    (0x0F, "GPRS detach ack"),
    (0x11, "IMSI detach"),
    (0x12, "IMSI detach ack"),
];

type Row = [u64; FIELDS];

/// A lawful frame of this type. Half of the IMSIs have fifteen digits, as most mobiles' have.
fn lawful_row(random: &mut Random, message_type: u64) -> Row {
    let mut row = [0; FIELDS];
    row[0] = random.from(1, 254);
    row[1] = random.from(1, 253);
    if row[1] >= row[0] {
        row[1] += 1;
    }
    row[2] = random.from(1, u32::MAX as u64);
    row[3] = if random.below(2) == 0 { 0 } else { random.below(1 << 32) };
    row[4] = message_type;
    if !matches!(message_type, 0x09 | 0x0A) {
        row[5] = if random.below(2) == 0 { 15 } else { random.from(1, 15) };
        row[6] = random.below(10u64.pow(row[5] as u32));
    }
    match message_type {
        0x00 => {
            if random.below(2) == 0 {
                row[7] = 1;
                row[8] = random.below(1 << 32);
            }
            if random.below(2) == 0 {
                row[9] = 1;
                row[10] = random.below(4);
            }
        }
        0x06 => {
            row[11] = random.from(1, 2);
            row[12] = random.below(1 << 40);
            row[13] = random.below(1 << 40);
            row[14] = random.from(1, 2);
        }
        0x07 => row[13] = random.below(1 << 40),
        0x08 => row[11] = random.from(1, 255),
        0x09 | 0x0A => row[11] = random.from(1, 254),
        _ => row[11] = random.from(1, 2),
    }
    row
}

fn damaged_row(random: &mut Random, mut row: Row) -> Row {
    for _ in 0..random.from(1, 2) {
        let at = random.below(FIELDS as u64) as usize;
        row[at] = match random.below(6) {
            0 => random.below(4),
            1 => random.below(20),
            2 => random.from(250, 300),
            3 => (1 << random.below(64)) - random.below(2),
            4 => 0,
            _ => random.next(),
        };
    }
    row
}

fn damaged_octets(random: &mut Random, octets: &[u8]) -> Vec<u8> {
    let mut octets = octets.to_vec();
    for _ in 0..random.from(1, 2) {
        let at = random.below(octets.len() as u64) as usize;
        match random.below(8) {
            6 if octets.len() > 6 => octets[2..6].fill(0),
            7 if octets.len() > 1 => octets[1] = octets[0],
            0 => octets[at] = random.next() as u8,
            1 => octets[at] = random.below(20) as u8,
            2 => octets[at] ^= 1 << random.below(8),
            3 => octets.truncate(at.max(1)),
            4 => octets.insert(at, random.below(16) as u8),
            _ => {
                for _ in 0..random.from(1, 40) {
                    octets.push(random.next() as u8);
                }
            }
        }
    }
    octets
}

/// Both readers on these octets: the same answer, and the same in every field.
fn check_reading(random: &mut Random, octets: &[u8]) -> u64 {
    let size = if random.below(20) == 0 { random.below(20) as usize } else { FIELDS };
    let before: Vec<u64> = (0..size).map(|_| random.next()).collect();
    let (mut ours, mut theirs) = (before.clone(), before.clone());
    let answer = proved_read(octets, &mut ours);
    assert_eq!(answer, plain::read(octets, &mut theirs), "answer on reading {octets:x?}");
    assert_eq!(ours, theirs, "fields on reading {octets:x?}");
    assert!(answer == 0 || ours == before, "fields changed by a refusal of {octets:x?}");
    answer
}

/// Both writers on these fields: the same answer, and the same in every octet of the buffer.
fn check_writing(random: &mut Random, fields: &[u64]) -> (u64, Vec<u8>) {
    let size = if random.below(20) == 0 { random.below(80) as usize } else { 64 };
    let before: Vec<u8> = (0..size).map(|_| random.next() as u8).collect();
    let (mut ours, mut theirs) = (before.clone(), before.clone());
    let answer = proved_write(fields, &mut ours);
    assert_eq!(answer, plain::write(fields, &mut theirs), "answer on writing {fields:?}");
    assert_eq!(ours, theirs, "buffer on writing {fields:?}");
    assert!(answer < 256 || ours == before, "buffer changed by a refusal of {fields:?}");
    (answer, ours)
}

fn octets_of(row: &Row) -> Vec<u8> {
    let mut buffer = [0; 64];
    let count = plain::write(row, &mut buffer);
    assert!(count < 256, "a lawful row was refused: {row:?}");
    buffer[..count as usize].to_vec()
}

fn check_agreement(random: &mut Random, rounds: usize) {
    let mut answers = std::collections::BTreeMap::new();
    let mut compared = 0u64;
    let mut count = |what: &'static str, answer: u64| {
        let number = if answer < 256 { 0 } else { answer / 256 };
        *answers.entry((what, number)).or_insert(0u64) += 1;
        compared += 1;
    };
    for _ in 0..rounds {
        for (message_type, _) in TYPES {
            let row = lawful_row(random, message_type);
            let octets = octets_of(&row);
            let mut fields = [u64::MAX; FIELDS];
            assert_eq!(proved_read(&octets, &mut fields), 0);
            assert_eq!(fields, row, "a row that is written is read again");
            count("read", check_reading(random, &octets));
            for _ in 0..3 {
                let damaged = damaged_octets(random, &octets);
                count("read", check_reading(random, &damaged));
            }
            let (answer, buffer) = check_writing(random, &row);
            count("write", answer);
            if answer < 256 {
                assert_eq!(buffer[..answer as usize], octets[..]);
            }
            for _ in 0..3 {
                let damaged = damaged_row(random, row);
                count("write", check_writing(random, &damaged).0);
            }
            let short = random.below(FIELDS as u64) as usize;
            count("write", check_writing(random, &row[..short]).0);
        }
    }
    println!("agreement: {compared} readings and writings, the same answer and the same memory on all of them");
    for what in ["read", "write"] {
        let row: Vec<String> = answers
            .iter()
            .filter(|((w, _), _)| *w == what)
            .map(|((_, number), n)| if *number == 0 { format!("done {n}") } else { format!("fault {number}: {n}") })
            .collect();
        println!("  {what}: {}", row.join(", "));
    }
}

/// Octets of many frames in one piece of memory.
struct Frames {
    octets: Vec<u8>,
    ends: Vec<usize>,
}

impl Frames {
    fn new(frames: impl Iterator<Item = Vec<u8>>) -> Frames {
        let mut all = Frames { octets: Vec::new(), ends: Vec::new() };
        for frame in frames {
            all.octets.extend_from_slice(&frame);
            all.ends.push(all.octets.len());
        }
        all
    }
}

fn time_reading(frames: &Frames, read: impl Fn(&[u8], &mut [u64]) -> u64) -> f64 {
    let mut fields = [0u64; FIELDS];
    let start = Instant::now();
    let mut at = 0;
    for &end in &frames.ends {
        black_box(read(black_box(&frames.octets[at..end]), &mut fields));
        black_box(&fields);
        at = end;
    }
    start.elapsed().as_nanos() as f64 / frames.ends.len() as f64
}

fn time_writing(rows: &[Row], write: impl Fn(&[u64], &mut [u8]) -> u64) -> f64 {
    let mut buffer = [0u8; 64];
    let start = Instant::now();
    for row in rows {
        black_box(write(black_box(&row[..]), &mut buffer));
        black_box(&buffer);
    }
    start.elapsed().as_nanos() as f64 / rows.len() as f64
}

/// The times of both sides over many rounds, whose order changes from round to round.
fn measure(rounds: usize, plain: impl Fn() -> f64, proved: impl Fn() -> f64) -> (Vec<f64>, Vec<f64>) {
    let (mut p, mut q) = (Vec::new(), Vec::new());
    for round in 0..rounds {
        if round % 2 == 0 {
            p.push(plain());
            q.push(proved());
        } else {
            q.push(proved());
            p.push(plain());
        }
    }
    p.sort_by(f64::total_cmp);
    q.sort_by(f64::total_cmp);
    (p, q)
}

fn report(name: &str, (plain, proved): (Vec<f64>, Vec<f64>)) {
    let middle = plain.len() / 2;
    println!(
        "{name:<28}{:>8.1}{:>8.1}{:>8.2}   {:>8.1}{:>8.1}{:>8.2}",
        plain[0],
        proved[0],
        plain[0] / proved[0],
        plain[middle],
        proved[middle],
        plain[middle] / proved[middle],
    );
}

fn main() {
    let mut random = Random(20_26);
    check_agreement(&mut random, 20_000);

    let rows: Vec<Row> = (0..6000)
        .map(|k| k % TYPES.len())
        .map(|k| lawful_row(&mut random, TYPES[k].0))
        .collect();
    let lawful = Frames::new(rows.iter().map(octets_of));
    let damaged = Frames::new(rows.iter().map(|row| damaged_octets(&mut random, &octets_of(row))));
    let bad_rows: Vec<Row> = rows.iter().map(|row| damaged_row(&mut random, *row)).collect();

    println!();
    println!("nanoseconds per frame, and plain / proved (above 1: the proved library is faster)");
    println!("{:<28}{:>8}{:>8}{:>8}   {:>8}{:>8}{:>8}", "", "plain", "proved", "ratio", "plain", "proved", "ratio");
    println!("{:<28}{:^24}   {:^24}", "", "best round", "median round");
    let rounds = 1501;
    report(
        "reading, lawful frames",
        measure(rounds, || time_reading(&lawful, plain::read), || time_reading(&lawful, proved_read)),
    );
    report(
        "reading, damaged frames",
        measure(rounds, || time_reading(&damaged, plain::read), || time_reading(&damaged, proved_read)),
    );
    report(
        "writing, lawful frames",
        measure(rounds, || time_writing(&rows, plain::write), || time_writing(&rows, proved_write)),
    );
    report(
        "writing, damaged fields",
        measure(rounds, || time_writing(&bad_rows, plain::write), || time_writing(&bad_rows, proved_write)),
    );

    if std::env::args().any(|word| word == "--types") {
        for (message_type, name) in TYPES {
            let rows: Vec<Row> = (0..2000).map(|_| lawful_row(&mut random, message_type)).collect();
            let frames = Frames::new(rows.iter().map(octets_of));
            report(
                &format!("  reading, {name}"),
                measure(101, || time_reading(&frames, plain::read), || time_reading(&frames, proved_read)),
            );
            report(
                &format!("  writing, {name}"),
                measure(101, || time_writing(&rows, plain::write), || time_writing(&rows, proved_write)),
            );
        }
    }
}
