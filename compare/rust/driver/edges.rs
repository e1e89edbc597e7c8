//! Chunks at the limits: levels of a page, plain bytes, pages, areas, and what a chunk is opened with.

use super::line::{Kind, hex};
use super::random::Random;
use std::io::{self, Write};

/// What `open` has behind the kind.
struct Opening {
    width: usize,
    max_def: i16,
    max_rep: i16,
    version: usize,
    rows: usize,
    size: usize,
    cut: &'static str,
    body: &'static str,
    area: usize,
}

impl Opening {
    fn new(random: &mut Random, kind: Kind) -> Self {
        Opening {
            width: match kind.number {
                9 | 12 => random.pick(&[1, 16, 17, 127, 128]),
                _ => kind.width().unwrap_or(0),
            },
            max_def: 0,
            max_rep: 0,
            version: random.pick(&[1, 2]),
            rows: 512,
            size: 4096,
            cut: random.pick(&["-", "1", "64"]),
            body: "plain",
            area: 65535,
        }
    }

    fn write(&self, kind: &str, out: &mut impl Write) -> io::Result<()> {
        let Opening {
            width,
            max_def,
            max_rep,
            version,
            rows,
            size,
            cut,
            body,
            area,
        } = self;
        writeln!(
            out,
            "open {kind} {width} {max_def} {max_rep} {version} {rows} {size} page {cut} packed {body} {area}"
        )
    }
}

pub fn chunk(random: &mut Random, text: &str, kind: Kind, out: &mut impl Write) -> io::Result<()> {
    let opening = Opening::new(random, kind);
    match random.below(5) {
        0 => levels(random, text, opening, out)?,
        1 => plain_bytes(random, text, opening, out)?,
        2 => pages(random, text, opening, out)?,
        3 => areas(random, text, opening, out)?,
        _ => openings(random, text, opening, out)?,
    }
    writeln!(out, "close")?;
    writeln!(out, "report")
}

// A page of 1,023, 1,024 or 1,025 levels, all of one row and without values.
fn levels(random: &mut Random, text: &str, opening: Opening, out: &mut impl Write) -> io::Result<()> {
    let opening = Opening {
        max_def: 1,
        max_rep: 1,
        ..opening
    };
    opening.write(text, out)?;
    let mut left = random.pick(&[1023, 1024, 1025]);
    while left > 0 {
        let count = left.min(random.pick(&[255, 256]));
        let reps: Vec<&str> = (0..count).map(|at| if at == 0 { "0" } else { "1" }).collect();
        writeln!(out, "batch {count} =0*{count} :{} none", reps.join(","))?;
        left -= count;
    }
    Ok(())
}

// A page one byte below its limit, and then a batch of 4,095 to 4,097 plain bytes, as near as the width allows.
fn plain_bytes(random: &mut Random, text: &str, opening: Opening, out: &mut impl Write) -> io::Result<()> {
    opening.write(text, out)?;
    for target in [4095, random.pick(&[4095, 4096, 4097])] {
        let values = values_of(random, opening.width, target);
        let words: Vec<String> = values.iter().map(|value| hex(value)).collect();
        writeln!(out, "batch {} - - {}", values.len(), words.join(","))?;
    }
    Ok(())
}

// Values of so many plain bytes.
fn values_of(random: &mut Random, width: usize, target: usize) -> Vec<Vec<u8>> {
    let mut value = |length: usize| vec![random.pick(&[0x00, 0x61, 0xFF]); length];
    if width > 0 {
        return (0..target.div_ceil(width).min(256)).map(|_| value(width)).collect();
    }
    let mut values = vec![];
    let mut left = target;
    while left > 264 {
        values.push(value(128));
        left -= 132;
    }
    if left > 132 {
        values.push(value(left / 2 - 4));
        left -= left / 2;
    }
    values.push(value(left - 4));
    values
}

// 63 to 65 pages of one row.
fn pages(random: &mut Random, text: &str, opening: Opening, out: &mut impl Write) -> io::Result<()> {
    Opening { rows: 1, ..opening }.write(text, out)?;
    for _ in 0..random.pick(&[63, 64, 65]) {
        let value = vec![random.pick(&[0x00, 0x61, 0xFF]); opening.width.max(1)];
        writeln!(out, "batch 1 - - {}", hex(&value))?;
    }
    Ok(())
}

// Pages of one row, up to the end of an area and beyond, or in an area of a size that the sink does not use.
fn areas(random: &mut Random, text: &str, opening: Opening, out: &mut impl Write) -> io::Result<()> {
    let length = opening.width.max(1);
    let page = if opening.width == 0 { 5 } else { opening.width };
    let area = random.pick(&[0, 3, 4, 4 + page - 1, 4 + page, 4 + 3 * page - 1, 4 + 3 * page, 65536]);
    Opening {
        rows: 1,
        area,
        ..opening
    }
    .write(text, out)?;
    for _ in 0..3 {
        writeln!(out, "batch 1 - - {}", hex(&vec![0x61; length]))?;
        if random.one_in(3) {
            writeln!(out, "cut")?;
        }
    }
    Ok(())
}

// A number one beyond its limits.
fn openings(random: &mut Random, text: &str, opening: Opening, out: &mut impl Write) -> io::Result<()> {
    let wrong = match random.below(12) {
        0 => Opening { max_def: 16, ..opening },
        1 => Opening {
            max_def: -1,
            max_rep: -1,
            ..opening
        },
        2 => Opening {
            max_def: 1,
            max_rep: 2,
            ..opening
        },
        3 => Opening {
            width: opening.width + 129,
            ..opening
        },
        4 => Opening { version: 0, ..opening },
        5 => Opening { version: 3, ..opening },
        6 => Opening { rows: 0, ..opening },
        7 => Opening { rows: 513, ..opening },
        8 => Opening { size: 0, ..opening },
        9 => Opening { size: 4097, ..opening },
        10 => Opening {
            cut: random.pick(&["0", "65"]),
            ..opening
        },
        _ => Opening {
            body: "split",
            ..opening
        },
    };
    wrong.write(text, out)?;
    writeln!(out, "batch 1 - - {}", hex(&vec![0x61; opening.width.max(1)]))
}
