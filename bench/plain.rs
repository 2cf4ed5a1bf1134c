//! Programs of one purpose each, in plain Rust: what some pipelines do, written for the files of `lasline gen` alone. They read and
//! write in large pieces, count in hundredths, and judge nothing. `bench/run.sh` times lasline against them, and compares what both
//! wrote.
//!
//!     rustc -O -o plain bench/plain.rs
//!     plain text big.las o.txt

use std::collections::HashMap;
use std::env;
use std::fs::File;
use std::io::{BufReader, BufWriter, Read, Result, Write};

/// A buffer has so many bytes, the header block of a file, and a record of format 3.
const BUFFER: usize = 1 << 18;
const HEADER: usize = 375;
const RECORD: usize = 34;

type Record = [u8; RECORD];

/// The point of a record, its coordinates in hundredths.
#[derive(Clone, Copy)]
struct Point {
    x: i64,
    y: i64,
    z: i64,
    intensity: u16,
    number: u8,
    returns: u8,
    class: u8,
    angle: i8,
    red: u16,
    green: u16,
}

fn i32_at(record: &Record, at: usize) -> i64 {
    i32::from_le_bytes(record[at..at + 4].try_into().unwrap()) as i64
}

fn u16_at(record: &Record, at: usize) -> u16 {
    u16::from_le_bytes(record[at..at + 2].try_into().unwrap())
}

fn point_of(record: &Record) -> Point {
    Point {
        x: i32_at(record, 0) + 50_000_000,
        y: i32_at(record, 4) + 480_000_000,
        z: i32_at(record, 8),
        intensity: u16_at(record, 12),
        number: record[14] & 7,
        returns: record[14] >> 3 & 7,
        class: record[15] & 31,
        angle: record[16] as i8,
        red: u16_at(record, 28),
        green: u16_at(record, 30),
    }
}

/// Hands each record of a file on, and answers its header block.
fn each_record(name: &str, mut take: impl FnMut(&Record) -> Result<()>) -> Result<[u8; HEADER]> {
    let mut file = BufReader::with_capacity(BUFFER, File::open(name)?);
    let mut header = [0; HEADER];
    file.read_exact(&mut header)?;
    let count = u64::from_le_bytes(header[247..255].try_into().unwrap());
    let mut record = [0; RECORD];
    for _ in 0..count {
        file.read_exact(&mut record)?;
        take(&record)?;
    }
    Ok(header)
}

fn created(name: &str) -> Result<BufWriter<File>> {
    Ok(BufWriter::with_capacity(BUFFER, File::create(name)?))
}

// ---- text

/// A line has at most so many bytes, and a buffer of lines so many.
const LINE: usize = 64;
const ROOM: usize = 1 << 16;

/// The digits of the numbers below 100.
const PAIRS: [[u8; 2]; 100] = {
    let mut pairs = [[0; 2]; 100];
    let mut n = 0;
    while n < 100 {
        pairs[n] = [b'0' + (n / 10) as u8, b'0' + (n % 10) as u8];
        n += 1;
    }
    pairs
};

/// A text file of X, Y and Z with three places.
struct Lines {
    file: File,
    room: Vec<u8>,
    line: [u8; LINE],
}

/// Writes hundredths with three places in front of a place of a line, and answers where they begin.
#[inline(always)]
fn put_before(line: &mut [u8; LINE], mut at: usize, hundredths: i64) -> usize {
    let size = hundredths.unsigned_abs();
    let [tens, ones] = PAIRS[(size % 100) as usize];
    line[at - 4..at].copy_from_slice(&[b'.', tens, ones, b'0']);
    at -= 4;
    let mut whole = size / 100;
    while whole >= 100 {
        line[at - 2..at].copy_from_slice(&PAIRS[(whole % 100) as usize]);
        at -= 2;
        whole /= 100;
    }
    let [tens, ones] = PAIRS[whole as usize];
    at -= 1;
    line[at] = ones;
    if whole >= 10 {
        at -= 1;
        line[at] = tens;
    }
    if hundredths < 0 {
        at -= 1;
        line[at] = b'-';
    }
    at
}

impl Lines {
    fn new(name: &str) -> Result<Lines> {
        let mut room = Vec::with_capacity(ROOM);
        room.extend_from_slice(b"\"X\",\"Y\",\"Z\"\n");
        let mut line = [b','; LINE];
        line[LINE - 1] = b'\n';
        let file = File::create(name)?;
        Ok(Lines { file, room, line })
    }

    #[inline(always)]
    fn put(&mut self, point: &Point) -> Result<()> {
        let mut at = put_before(&mut self.line, LINE - 1, point.z) - 1;
        self.line[at] = b',';
        at = put_before(&mut self.line, at, point.y) - 1;
        self.line[at] = b',';
        at = put_before(&mut self.line, at, point.x);
        self.room.extend_from_slice(&self.line[at..]);
        if self.room.len() > ROOM - LINE {
            self.file.write_all(&self.room)?;
            self.room.clear();
        }
        Ok(())
    }

    fn finish(mut self) -> Result<()> {
        self.file.write_all(&self.room)
    }
}

fn text(input: &str, output: &str) -> Result<()> {
    let mut lines = Lines::new(output)?;
    each_record(input, |record| lines.put(&point_of(record)))?;
    lines.finish()
}

/// A range, each third point of it, and text.
fn trial(input: &str, output: &str) -> Result<()> {
    let mut lines = Lines::new(output)?;
    let mut seen = 0;
    each_record(input, |record| {
        let point = point_of(record);
        if point.class == 2 {
            seen += 1;
            if seen % 3 == 1 {
                return lines.put(&point);
            }
        }
        Ok(())
    })?;
    lines.finish()
}

/// The corners of a polygon, in thousandths.
const CORNERS: [(i64, i64); 12] = [
    (500_100_005, 4_800_100_005),
    (500_500_005, 4_800_050_005),
    (500_900_005, 4_800_150_005),
    (500_800_005, 4_800_300_005),
    (500_950_005, 4_800_500_005),
    (500_850_005, 4_800_800_005),
    (500_600_005, 4_800_700_005),
    (500_500_005, 4_800_950_005),
    (500_300_005, 4_800_750_005),
    (500_050_005, 4_800_850_005),
    (500_150_005, 4_800_500_005),
    (500_020_005, 4_800_300_005),
];

/// Whether a point lies on an edge, or an odd number of edges cross the line from it to the right.
fn is_inside(point: &Point) -> bool {
    let (x, y) = (point.x * 10, point.y * 10);
    let mut inside = false;
    for (i, &(ax, ay)) in CORNERS.iter().enumerate() {
        let (bx, by) = CORNERS[(i + 1) % CORNERS.len()];
        if (ay > y) != (by > y) {
            let side = (bx - ax) * (y - ay) - (x - ax) * (by - ay);
            if side == 0 {
                return true;
            }
            inside ^= (side > 0) == (by > ay);
        }
    }
    inside
}

/// A crop of twelve corners, a condition, an assignment, and text.
fn chain(input: &str, output: &str) -> Result<()> {
    let mut lines = Lines::new(output)?;
    each_record(input, |record| {
        let mut point = point_of(record);
        if is_inside(&point) && (point.class == 2 || point.intensity > 20_000) {
            point.z = point.z * 2 - 100;
            return lines.put(&point);
        }
        Ok(())
    })?;
    lines.finish()
}

/// By Z, in memory, and text.
fn sort(input: &str, output: &str) -> Result<()> {
    let mut records = Vec::new();
    each_record(input, |record| {
        records.push(*record);
        Ok(())
    })?;
    records.sort_by_key(|record| i32_at(record, 8));
    let mut lines = Lines::new(output)?;
    for record in &records {
        lines.put(&point_of(record))?;
    }
    lines.finish()
}

// ---- LAS files

/// The records of a LAS file, whose header block is written in the end, with what it says of them.
struct Records {
    file: BufWriter<File>,
    count: u64,
    least: [i64; 3],
    greatest: [i64; 3],
    by_number: [u64; 15],
}

impl Records {
    fn new(name: &str) -> Result<Records> {
        let mut file = created(name)?;
        file.write_all(&[0; HEADER])?;
        Ok(Records {
            file,
            count: 0,
            least: [i64::MAX; 3],
            greatest: [i64::MIN; 3],
            by_number: [0; 15],
        })
    }

    fn put(&mut self, record: &Record) -> Result<()> {
        self.count += 1;
        for axis in 0..3 {
            let raw = i32_at(record, axis * 4);
            self.least[axis] = self.least[axis].min(raw);
            self.greatest[axis] = self.greatest[axis].max(raw);
        }
        let number = (record[14] & 7) as usize;
        if number > 0 {
            self.by_number[number - 1] += 1;
        }
        self.file.write_all(record)
    }

    /// The header block is that of the input, but for counts and borders.
    fn finish(mut self, mut header: [u8; HEADER]) -> Result<()> {
        use std::io::{Seek, SeekFrom};
        header[247..255].copy_from_slice(&self.count.to_le_bytes());
        for (k, count) in self.by_number.iter().enumerate() {
            header[255 + 8 * k..263 + 8 * k].copy_from_slice(&count.to_le_bytes());
        }
        for axis in 0..3 {
            let offset = [500_000.0, 4_800_000.0, 0.0][axis];
            let borders = [self.greatest[axis], self.least[axis]];
            for (k, raw) in borders.iter().enumerate() {
                let border = *raw as f64 * 0.01 + offset;
                let at = 179 + 16 * axis + 8 * k;
                header[at..at + 8].copy_from_slice(&border.to_le_bytes());
            }
        }
        self.file.seek(SeekFrom::Start(0))?;
        self.file.write_all(&header)?;
        self.file.flush()
    }
}

fn copy(input: &str, output: &str) -> Result<()> {
    let mut records = Records::new(output)?;
    let header = each_record(input, |record| records.put(record))?;
    records.finish(header)
}

/// Ten ranges.
fn ranges(input: &str, output: &str) -> Result<()> {
    let mut records = Records::new(output)?;
    let header = each_record(input, |record| {
        let p = point_of(record);
        if (10_000..=14_900).contains(&p.z)
            && (50_001_000..50_099_000).contains(&p.x)
            && (480_000_000..=480_400_000).contains(&p.y)
            && p.intensity >= 1_000
            && (1..=7).contains(&p.class)
            && (1..=4).contains(&p.number)
            && (1..=5).contains(&p.returns)
            && (-29..=29).contains(&p.angle)
            && p.red <= 64_000
            && p.green >= 500
        {
            return records.put(record);
        }
        Ok(())
    })?;
    records.finish(header)
}

/// Two files one after the other, by the values of a dimension.
fn groups(input: &str, output: &str) -> Result<()> {
    let mut places = HashMap::new();
    let mut groups: Vec<Vec<Record>> = Vec::new();
    let mut header = [0; HEADER];
    for _ in 0..2 {
        header = each_record(input, |record| {
            let place = *places.entry(record[15] & 31).or_insert(groups.len());
            if place == groups.len() {
                groups.push(Vec::new());
            }
            groups[place].push(*record);
            Ok(())
        })?;
    }
    let mut records = Records::new(output)?;
    for record in groups.iter().flatten() {
        records.put(record)?;
    }
    records.finish(header)
}

/// Points of format 3 by the rule of `lasline gen`.
fn generate(count: &str, output: &str) -> Result<()> {
    let mut records = Records::new(output)?;
    for i in 0..count.parse().expect("a count") {
        records.put(&generated(i))?;
    }
    records.finish([0; HEADER])
}

fn generated(i: u64) -> Record {
    let h = (i + 1)
        .wrapping_mul(6_364_136_223_846_793_005)
        .wrapping_add(1_442_695_040_888_963_407);
    let returns = 1 + h / (1 << 8) % 5;
    let number = 1 + h / (1 << 16) % returns;
    let class = [1, 2, 3, 4, 5, 6, 7, 9][(h / (1 << 4) % 8) as usize];
    let x = (i % 1_000 * 100 + h / (1 << 24) % 100) as i32;
    let y = (i / 1_000 * 100 + h / (1 << 32) % 100) as i32;
    let z = (10_000 + h / (1 << 40) % 5_000) as i32;
    let light = (h / (1 << 48)) as u16;
    let mut record = [0; RECORD];
    record[0..4].copy_from_slice(&x.to_le_bytes());
    record[4..8].copy_from_slice(&y.to_le_bytes());
    record[8..12].copy_from_slice(&z.to_le_bytes());
    record[12..14].copy_from_slice(&light.to_le_bytes());
    record[14] = (number | returns << 3) as u8;
    record[15] = class;
    record[16] = ((h / (1 << 12) % 61) as i8 - 30) as u8;
    record[18..20].copy_from_slice(&1u16.to_le_bytes());
    record[20..28].copy_from_slice(&(i as f64 / 1e6).to_le_bytes());
    record[28..30].copy_from_slice(&light.to_le_bytes());
    record[30..32].copy_from_slice(&((h / (1 << 20)) as u16).to_le_bytes());
    record[32..34].copy_from_slice(&((h / (1 << 30)) as u16).to_le_bytes());
    record
}

fn main() -> Result<()> {
    let words: Vec<String> = env::args().skip(1).collect();
    let [purpose, input, output] = &words[..] else {
        panic!("plain PURPOSE IN OUT");
    };
    match purpose.as_str() {
        "text" => text(input, output),
        "copy" => copy(input, output),
        "trial" => trial(input, output),
        "chain" => chain(input, output),
        "sort" => sort(input, output),
        "groups" => groups(input, output),
        "ranges" => ranges(input, output),
        "gen" => generate(input, output),
        other => panic!("{other}: no such purpose"),
    }
}
