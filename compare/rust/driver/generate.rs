//! Makes cases: exhaustive short ones first, then random ones around the limits.

use super::columns::{Typed, column, with_type};
use super::edges;
use super::line::{Kind, hex};
use super::random::Random;
use crate::data_type::DataType;
use crate::door::ValueDoor;
use std::cmp::Ordering;
use std::io::{self, Write};

/// Writes `count` random cases for each kind, after the exhaustive ones where `count` is no small number.
pub fn write(what: &str, seed: u64, count: u64, out: &mut impl Write) -> Result<(), String> {
    let mut random = Random::new(seed);
    let written = match what {
        "values" => values(&mut random, count, out),
        "chunks" => chunks(&mut random, count, out),
        _ => return Err(format!("{what}: expected values or chunks")),
    };
    written.map_err(|e| e.to_string())
}

const KINDS: [&str; 18] = [
    "1", "2", "3", "4", "5", "6", "7", "8", "9", "10", "11", "12", "2c", "4c", "9c", "10c", "11c", "12c",
];

fn kind(text: &str) -> Kind {
    Kind::read(text).unwrap()
}

// Cases on values

fn values(random: &mut Random, count: u64, out: &mut impl Write) -> io::Result<()> {
    exhaustive(count, out)?;
    for text in KINDS {
        // A decoration by a converted type alone changes little: a tenth of the cases.
        let kind = kind(text);
        for _ in 0..if kind.converted { count / 10 } else { count } {
            value_case(random, text, kind, out)?;
        }
    }
    for _ in 0..count {
        levels_case(random, out)?;
        writeln!(out, "raise {}", hex(&bytes(random, 8)))?;
        let text = valid_text(random, 8);
        writeln!(out, "raise-text {}", hex(text.as_bytes()))?;
    }
    Ok(())
}

// Every list of up to three of a few bytes with every other, every cut of up to four, and every Float16 pattern. Of these
// every n-th is taken where few cases are wanted.
fn exhaustive(count: u64, out: &mut impl Write) -> io::Result<()> {
    let step = (20_000 / count.max(1)).max(1);
    let mut at = 0;
    let mut put = |line: std::fmt::Arguments| -> io::Result<()> {
        at += 1;
        if at % step == 0 {
            writeln!(out, "{line}")
        } else {
            Ok(())
        }
    };
    let short = lists(&[0x00, 0x01, 0x7F, 0x80, 0xFE, 0xFF], 3);
    for kind in ["8", "9", "10", "11", "12"] {
        for (i, a) in short.iter().enumerate() {
            for b in &short[..=i] {
                put(format_args!("greater {kind} {} {}", hex(a), hex(b)))?;
            }
        }
    }
    for kind in ["8", "9", "10", "11", "12", "12c"] {
        for value in lists(&[0x00, 0x61, 0x7F, 0x80, 0xFE, 0xFF], 4) {
            for length in 1..=4 {
                put(format_args!("cut {kind} {length} {}", hex(&value)))?;
            }
        }
    }
    for value in lists(&[0x41, 0x7F, 0x80, 0xBF, 0xC3, 0xDF, 0xED, 0x9F, 0xEF, 0xF4, 0x8F], 4) {
        put(format_args!("cut 10 3 {}", hex(&value)))?;
    }
    // Fewer patterns where few cases are wanted, and all that is asked of each.
    let (mut put, apart) = (
        |line: std::fmt::Arguments| writeln!(out, "{line}"),
        if step > 1 { 4093 } else { 1 },
    );
    for pattern in (0..=u16::MAX).step_by(apart) {
        let value = hex(&pattern.to_le_bytes());
        put(format_args!("update 7 none {value}"))?;
        for other in [
            0x0000,
            0x8000,
            0x7C00,
            0xFC00,
            0x7C01,
            0xFE00,
            0x7FFF,
            0xFFFF,
            pattern ^ 1,
            !pattern,
        ] {
            let other = hex(&u16::to_le_bytes(other));
            put(format_args!("greater 7 {value} {other}"))?;
            put(format_args!("figures 7 {other} {value}"))?;
        }
    }
    Ok(())
}

fn lists(alphabet: &[u8], longest: usize) -> Vec<Vec<u8>> {
    let mut all = vec![vec![]];
    let mut begin = 0;
    for _ in 0..longest {
        let end = all.len();
        for at in begin..end {
            for byte in alphabet {
                let mut list: Vec<u8> = all[at].clone();
                list.push(*byte);
                all.push(list);
            }
        }
        begin = end;
    }
    all
}

fn value_case(random: &mut Random, text: &str, kind: Kind, out: &mut impl Write) -> io::Result<()> {
    match random.below(4) {
        0 => {
            let a = value(random, kind);
            let b = near(random, kind, &a);
            writeln!(out, "greater {text} {} {}", hex(&a), hex(&b))
        }
        1 => {
            write!(out, "figures {text}")?;
            let first = value(random, kind);
            for _ in 0..random.pick(&[0, 1, 2, 2, 3, 3, 4, 5, 8, 20]) {
                let value = if random.one_in(3) {
                    near(random, kind, &first)
                } else {
                    value(random, kind)
                };
                write!(out, " {}", hex(&value))?;
            }
            writeln!(out)
        }
        2 => {
            let old = value(random, kind);
            let new = near(random, kind, &old);
            let old = if random.one_in(20) {
                "none".to_string()
            } else {
                hex(&old)
            };
            writeln!(out, "update {text} {old} {}", hex(&new))
        }
        _ => {
            let length = random.pick(&[1, 2, 3, 4, 5, 6, 7, 8, 16, 63, 64]);
            let mut value = if kind.number == 10 {
                string(random, length)
            } else if kind.width().is_some() {
                value(random, kind)
            } else {
                bytes(random, length)
            };
            // Around the length.
            if random.one_in(3) {
                value.truncate(length + random.below(2));
            }
            writeln!(out, "cut {text} {length} {}", hex(&value))
        }
    }
}

fn value(random: &mut Random, kind: Kind) -> Vec<u8> {
    let value = match kind.number {
        1 | 2 => integer(random, 32).to_le_bytes()[..4].to_vec(),
        3 | 4 => integer(random, 64).to_le_bytes().to_vec(),
        5 => float(random, 8, 23).to_le_bytes()[..4].to_vec(),
        6 => float(random, 11, 52).to_le_bytes().to_vec(),
        7 => float(random, 5, 10).to_le_bytes()[..2].to_vec(),
        8 | 9 => bytes(random, 4),
        10 => string(random, 4),
        _ => decimal(random),
    };
    // A damaged copy: of another length.
    if kind.width().is_some() && random.one_in(400) {
        return value[..random.below(value.len())].to_vec();
    }
    value
}

// A value near another: the same, with one bit changed, or any.
fn near(random: &mut Random, kind: Kind, other: &[u8]) -> Vec<u8> {
    let mut value = if random.one_in(2) {
        other.to_vec()
    } else {
        value(random, kind)
    };
    if !value.is_empty() && random.one_in(2) {
        let at = random.below(value.len());
        value[at] ^= 1 << random.below(8);
    }
    if kind.width().is_none() && random.one_in(3) {
        match random.below(4) {
            0 => value.push(random.pick(&[0x00, 0x01, 0x80, 0xFF])),
            1 => value.truncate(value.len().saturating_sub(1)),
            2 => value.insert(0, random.pick(&[0x00, 0xFF])),
            _ => value.insert(0, random.pick(&[0x01, 0x7F, 0x80, 0xFE])),
        }
        value.truncate(128);
    }
    value
}

fn integer(random: &mut Random, bits: u32) -> u64 {
    let power = 1u64 << random.below(bits as usize);
    let number = match random.below(6) {
        0 => random.next(),
        1 => power,
        2 => power.wrapping_sub(1),
        3 => power.wrapping_neg(),
        4 => random.below(5) as u64,
        _ => !(random.below(5) as u64),
    };
    if bits == 64 { number } else { number & ((1 << bits) - 1) }
}

// Signs, zeros, subnormal and normal numbers at their ends, infinities, and NaN quiet and signaling.
fn float(random: &mut Random, exponent_bits: u32, fraction_bits: u32) -> u64 {
    let top = (1u64 << exponent_bits) - 1;
    let ones = (1u64 << fraction_bits) - 1;
    let quiet = 1u64 << (fraction_bits - 1);
    let any = random.next();
    let exponent = random.pick(&[0, 1, top / 2, top - 1, top, top, any & top]);
    let fraction = random.pick(&[0, 0, 1, quiet - 1, quiet, quiet + 1, ones, random_bits(any, ones)]);
    let sign = any >> 63;
    (sign << (exponent_bits + fraction_bits)) | (exponent << fraction_bits) | fraction
}

fn random_bits(any: u64, ones: u64) -> u64 {
    (any >> 7) & ones
}

// Bytes around a length: runs of FF, and any.
fn bytes(random: &mut Random, length: usize) -> Vec<u8> {
    let count = match random.below(6) {
        0 => random.below(4),
        1 => random.pick(&[127, 128]),
        _ => (length + random.below(4)).saturating_sub(1),
    };
    let run = random.below(count + 1);
    let alphabet = random.pick(&[
        &[0xFFu8][..],
        &[0x00, 0xFF],
        &[0x61, 0x62, 0xFF],
        &[0x00, 0x7F, 0x80, 0xFE, 0xFF],
    ]);
    (0..count)
        .map(|at| {
            if at < run {
                random.pick(alphabet)
            } else if random.one_in(2) {
                0xFF
            } else {
                random.next() as u8
            }
        })
        .collect()
}

// Characters at both ends of each length, before and behind the surrogates, and at the last code point.
const CODES: [u32; 32] = [
    0x00, 0x01, 0x41, 0x61, 0x7E, 0x7F, 0x80, 0x81, 0xE9, 0x3FF, 0x7FE, 0x7FF, 0x800, 0x801, 0xFFF, 0x1000, 0x20AC,
    0xCFFF, 0xD000, 0xD7FE, 0xD7FF, 0xE000, 0xFFFD, 0xFFFE, 0xFFFF, 0x10000, 0x1F600, 0x3FFFF, 0x40000, 0xFFFFF,
    0x10FFFE, 0x10FFFF,
];

fn valid_text(random: &mut Random, length: usize) -> String {
    let mut text = String::new();
    let end = match random.below(4) {
        0 => random.below(4),
        _ => length + random.below(6),
    };
    let last_only = random.one_in(4);
    while text.len() < end {
        let code = if last_only {
            random.pick(&[0x7F, 0x7FF, 0xD7FF, 0xFFFF, 0x10FFFF])
        } else if random.one_in(8) {
            random.below(0x110000) as u32
        } else {
            random.pick(&CODES)
        };
        let Some(c) = char::from_u32(code) else { continue };
        if text.len() + c.len_utf8() > 128 {
            break;
        }
        text.push(c);
    }
    text
}

// Text, and damaged text: a byte changed, dropped or put in.
fn string(random: &mut Random, length: usize) -> Vec<u8> {
    let mut value = valid_text(random, length).into_bytes();
    if value.is_empty() || !random.one_in(3) {
        return value;
    }
    let at = random.below(value.len());
    match random.below(4) {
        0 => value[at] ^= 1 << random.below(8),
        1 => {
            value.remove(at);
        }
        2 => {
            value[at] = random.pick(&[
                0x80, 0xBF, 0xC0, 0xC1, 0xC2, 0xE0, 0xED, 0xA0, 0x9F, 0xF0, 0x8F, 0x90, 0xF4, 0xF5, 0xFF,
            ])
        }
        _ => {
            let sequence = random.pick(&[
                &[0xC0u8, 0x80][..],
                &[0xE0, 0x9F, 0xBF],
                &[0xED, 0xA0, 0x80],
                &[0xF0, 0x8F, 0xBF, 0xBF],
                &[0xF4, 0x90, 0x80, 0x80],
            ]);
            value.splice(at..at, sequence.iter().copied());
            value.truncate(128);
        }
    }
    value
}

// Numbers of either sign, with sign extension ahead of some.
fn decimal(random: &mut Random) -> Vec<u8> {
    let count = random.pick(&[0, 1, 1, 2, 2, 3, 4, 8, 16, 17, 128]);
    let mut value: Vec<u8> = (0..count)
        .map(|_| match random.below(3) {
            0 => random.next() as u8,
            _ => random.pick(&[0x00, 0x01, 0x7F, 0x80, 0xFE, 0xFF]),
        })
        .collect();
    if random.one_in(2) {
        let extension = match value.first() {
            Some(first) if 0x80 <= *first => 0xFF,
            _ => 0x00,
        };
        for _ in 0..random.below(4) {
            value.insert(0, extension);
        }
    }
    value.truncate(128);
    value
}

fn levels_case(random: &mut Random, out: &mut impl Write) -> io::Result<()> {
    let count = random.pick(&[0, 1, 2, 3, 7, 8, 9, 17]);
    let levels = match random.below(5) {
        0 => "-".to_string(),
        1 | 2 => format!("={}*{count}", random.within(0, 4) as i64 - 1),
        _ => list(&level_list(random, count, 3)),
    };
    // Mostly a slice that is there.
    let (offset, len) = if random.one_in(8) {
        let far = if random.one_in(10) {
            usize::MAX
        } else {
            random.below(count + 3)
        };
        (random.below(count + 2), far)
    } else {
        let offset = random.below(count + 1);
        (offset, random.below(count - offset + 1))
    };
    let (total, max) = (random.below(20), random.below(4));
    writeln!(out, "levels {total} {max} {offset} {len} {levels}")
}

fn list(levels: &[i16]) -> String {
    let levels: Vec<String> = levels.iter().map(|level| level.to_string()).collect();
    format!(":{}", levels.join(","))
}

// Levels up to a maximum, in runs of one value or any.
fn level_list(random: &mut Random, count: usize, max: i16) -> Vec<i16> {
    let mut levels = vec![];
    while levels.len() < count {
        let level = random.below(max as usize + 1) as i16;
        let run = if random.one_in(3) { random.within(1, 20) } else { 1 };
        for _ in 0..run.min(count - levels.len()) {
            levels.push(level);
        }
    }
    levels
}

// Cases on chunks

/// What a script knows of the page that it fills, so that most scripts stay within the limits.
struct Script {
    kind: Kind,
    width: usize,
    max_def: i16,
    max_rep: i16,
    row_limit: usize,
    size_limit: usize,
    levels: usize,
    rows: usize,
    plain: usize,
    pages: usize,
    /// Small batches of values that rise or fall, so that the order of pages is at stake.
    sorted: Option<Vec<Vec<u8>>>,
}

fn chunks(random: &mut Random, count: u64, out: &mut impl Write) -> io::Result<()> {
    for at in 0..count {
        let text = KINDS[at as usize % KINDS.len()];
        if random.one_in(8) {
            edges::chunk(random, text, kind(text), out)?;
            continue;
        }
        let mut script = open(random, text, out)?;
        for _ in 0..random.pick(&[0, 1, 2, 3, 5, 8, 20, 60]) {
            if script.pages >= 63 {
                break;
            }
            if random.one_in(6) {
                script.cut(out)?;
            } else {
                script.batch(random, out)?;
            }
        }
        writeln!(out, "close")?;
        writeln!(out, "report")?;
    }
    Ok(())
}

fn open(random: &mut Random, text: &str, out: &mut impl Write) -> io::Result<Script> {
    let kind = kind(text);
    let width = match kind.number {
        9 | 12 => random.pick(&[1, 2, 3, 4, 8, 16, 127, 128]),
        8 | 10 | 11 => 0,
        _ => kind.width().unwrap_or(0),
    };
    let (max_def, max_rep) = random.pick(&[
        (0, 0),
        (0, 0),
        (1, 0),
        (1, 0),
        (1, 1),
        (2, 1),
        (3, 2),
        (15, 15),
        (4, 0),
        (8, 3),
    ]);
    let small = random.one_in(2);
    let row_limit = if small {
        random.within(1, 4)
    } else {
        random.pick(&[1, 2, 3, 7, 8, 20, 255, 256, 257, 511, 512])
    };
    let size_limit = random.pick(&[1, 2, 64, 1000, 4095, 4096]);
    let version = random.pick(&[1, 2]);
    let mode = random.pick(&["page", "page", "page", "chunk"]);
    let cut = random.pick(&["-", "1", "2", "3", "4", "8", "63", "64"]);
    let body = if width > 0 && random.one_in(3) {
        "split"
    } else {
        "plain"
    };
    writeln!(
        out,
        "open {text} {width} {max_def} {max_rep} {version} {row_limit} {size_limit} {mode} {cut} packed {body} 65535"
    )?;
    let mut script = Script {
        kind,
        width,
        max_def,
        max_rep,
        row_limit,
        size_limit,
        levels: 0,
        rows: 0,
        plain: 0,
        pages: 0,
        sorted: None,
    };
    if small {
        let mut values = script.values(random, 60);
        values.truncate(60);
        let falls = random.one_in(2);
        with_type!(kind, D => sort::<D>(kind, &mut values, falls));
        script.sorted = Some(values);
    }
    Ok(script)
}

// Puts values into their order.
fn sort<D: DataType<T: Typed>>(kind: Kind, values: &mut Vec<Vec<u8>>, falls: bool) {
    let descr = column(kind, 0, 0);
    let greater = |a: &[u8], b: &[u8]| match (D::T::typed(a), D::T::typed(b)) {
        (Some(a), Some(b)) => D::T::greater(&descr, &a, &b),
        _ => false,
    };
    values.sort_by(|a, b| match (greater(a, b), greater(b, a)) {
        (true, _) => Ordering::Greater,
        (false, true) => Ordering::Less,
        _ => Ordering::Equal,
    });
    if falls {
        values.reverse();
    }
}

impl Script {
    fn cut(&mut self, out: &mut impl Write) -> io::Result<()> {
        self.turn();
        writeln!(out, "cut")
    }

    fn turn(&mut self) {
        if self.levels > 0 {
            self.pages += 1;
        }
        self.levels = 0;
        self.rows = 0;
        self.plain = 0;
    }

    fn batch(&mut self, random: &mut Random, out: &mut impl Write) -> io::Result<()> {
        let mut count = if self.sorted.is_some() {
            random.below(4)
        } else {
            random.pick(&[0, 1, 1, 2, 3, 4, 8, 20, 100, 255, 256, 257])
        };
        // Most batches are kept within the limits; some go one beyond. Without levels there is no repetition level to begin with.
        if !random.one_in(40) {
            count = count.clamp(usize::from(self.max_rep > 0), 256);
            if self.levels + count > 1024 {
                self.cut(out)?;
            }
        }
        let mut defs = self.defs(random, count);
        let mut reps = self.reps(random, count);
        let mut needed = match &defs {
            Given::Absent => count,
            given => given.levels().iter().filter(|level| **level == self.max_def).count(),
        };
        if self.max_def == 0 {
            needed = count;
        }
        let mut values = match &mut self.sorted {
            Some(sorted) if needed <= sorted.len() && !random.one_in(30) => sorted.drain(..needed).collect(),
            _ => self.values(random, needed),
        };
        if random.one_in(60) {
            self.damage(random, &mut defs, &mut reps, &mut values);
        }
        let plain: usize = values[..needed.min(values.len())]
            .iter()
            .map(|value| value.len() + if self.width == 0 { 4 } else { 0 })
            .sum();
        self.levels += count;
        self.rows += if self.max_rep == 0 {
            count
        } else {
            reps.levels().iter().filter(|level| **level == 0).count()
        };
        self.plain += plain;
        let words: Vec<String> = values.iter().map(|value| hex(value)).collect();
        let words = if words.is_empty() {
            "none".to_string()
        } else {
            words.join(",")
        };
        writeln!(out, "batch {count} {} {} {words}", defs.text(), reps.text())?;
        if self.levels > 0 && (self.rows >= self.row_limit || self.plain >= self.size_limit) {
            self.turn();
        }
        Ok(())
    }

    fn defs(&self, random: &mut Random, count: usize) -> Given {
        match random.below(6) {
            _ if self.max_def == 0 && random.one_in(2) => Given::Absent,
            0 => Given::Uniform(self.max_def, count),
            1 => Given::Uniform(random.below(self.max_def as usize + 1) as i16, count),
            2 => Given::List((0..count).map(|_| self.max_def).collect()),
            _ => Given::List(level_list(random, count, self.max_def)),
        }
    }

    fn reps(&self, random: &mut Random, count: usize) -> Given {
        if self.max_rep == 0 && random.one_in(2) {
            return Given::Absent;
        }
        match random.below(6) {
            0 => Given::Uniform(0, count),
            _ => {
                let mut levels = level_list(random, count, self.max_rep);
                if let Some(first) = levels.first_mut() {
                    *first = 0;
                }
                Given::List(levels)
            }
        }
    }

    // The values that are needed, and sometimes more; around 4,096 plain bytes at times.
    fn values(&self, random: &mut Random, needed: usize) -> Vec<Vec<u8>> {
        let more = if random.one_in(8) { random.below(3) } else { 0 };
        let wide = random.one_in(12);
        let mut plain = 0;
        let mut values = vec![];
        for at in 0..needed + more {
            let mut value = match self.kind.number {
                9 | 12 => {
                    let mut value = if self.kind.number == 12 {
                        decimal(random)
                    } else {
                        bytes(random, self.width)
                    };
                    value.resize(self.width, random.pick(&[0x00, 0x61, 0xFF]));
                    value
                }
                8 if wide => bytes(random, 128),
                _ => well_sized(random, self.kind),
            };
            if self.width == 0 {
                // Of values of their own length, as many bytes as a batch still has room for.
                let left = 4096usize.saturating_sub(plain + 4 * (needed - at.min(needed)));
                if !random.one_in(500) {
                    value.truncate(left);
                }
                plain += 4 + value.len();
            }
            values.push(value);
        }
        values
    }

    // A damaged copy of a batch.
    fn damage(&self, random: &mut Random, defs: &mut Given, reps: &mut Given, values: &mut Vec<Vec<u8>>) {
        match random.below(8) {
            0 => defs.damage(random, self.max_def),
            1 => reps.damage(random, self.max_rep),
            2 => {
                values.pop();
            }
            3 => *defs = Given::Absent,
            4 => *reps = Given::Absent,
            5 => *reps = Given::Uniform(1, reps.levels().len()),
            6 => {
                if let Some(value) = values.last_mut() {
                    value.push(0);
                }
            }
            _ => defs.shorten(),
        }
    }
}

// A value that its column may have.
fn well_sized(random: &mut Random, kind: Kind) -> Vec<u8> {
    loop {
        let value = value(random, kind);
        if kind.width().is_none_or(|width| width == value.len()) {
            return value;
        }
    }
}

enum Given {
    Absent,
    List(Vec<i16>),
    Uniform(i16, usize),
}

impl Given {
    fn levels(&self) -> Vec<i16> {
        match self {
            Given::Absent => vec![],
            Given::List(levels) => levels.clone(),
            Given::Uniform(value, count) => vec![*value; *count],
        }
    }

    fn text(&self) -> String {
        match self {
            Given::Absent => "-".to_string(),
            Given::List(levels) => list(levels),
            Given::Uniform(value, count) => format!("={value}*{count}"),
        }
    }

    fn damage(&mut self, random: &mut Random, max: i16) {
        let bad = random.pick(&[-1, max + 1, i16::MIN, i16::MAX]);
        let mut levels = self.levels();
        if !levels.is_empty() {
            let at = random.below(levels.len());
            levels[at] = bad;
        }
        *self = Given::List(levels);
    }

    fn shorten(&mut self) {
        let mut levels = self.levels();
        levels.pop();
        *self = Given::List(levels);
    }
}
