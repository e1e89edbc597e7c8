//! The measurement of speed: makes a chunk's levels and values, writes them with the sources as the program `speed` does, counts
//! and times both, and prints a table.

use super::columns::{Typed, column};
use super::line::{Kind, hex, unhex};
use super::random::Random;
use crate::basic::Encoding;
use crate::column::page::{CompressedPage, PageWriteSpec, PageWriter};
use crate::column::writer::{ColumnWriterImpl, LevelDataRef};
use crate::data_type::{ByteArrayType, DataType, DoubleType, Int32Type};
use crate::door::ChunkDoor;
use crate::errors::Result as Written;
use crate::file::properties::{EnabledStatistics, WriterProperties, WriterPropertiesPtr, WriterVersion};
use std::fmt::Write as _;
use std::hint::black_box;
use std::io::{self, Read, Write};
use std::process::{Command, Stdio};
use std::sync::Arc;
use std::time::{Duration, Instant};

// The Rust side, on the same input as the program

pub fn write() -> Result<(), String> {
    let mut text = String::new();
    io::stdin().read_to_string(&mut text).map_err(|e| e.to_string())?;
    let lines: Vec<&str> = text.lines().collect();
    let [first, defs, reps, values] = lines[..] else {
        return Err("four lines are expected".to_string());
    };
    let words: Vec<&str> = first.split(' ').collect();
    let number = |at: usize| -> Result<i16, String> {
        let word: &&str = words.get(at).ok_or("five words are expected")?;
        word.parse().map_err(|_| format!("{word}: expected a number"))
    };
    let levels = |text: &str| -> Vec<i16> {
        let digits = text.bytes().filter(u8::is_ascii_digit);
        digits.map(|digit| i16::from(digit - b'0')).collect()
    };
    let kind = Kind::read(words[0]).ok_or("a kind")?;
    let given = Given {
        kind,
        max_def: number(1)?,
        max_rep: number(2)?,
        times: number(3)?,
        is_timed: words.len() > 5,
        defs: levels(defs),
        reps: levels(reps),
        values: values.split(',').map(unhex).collect::<Option<_>>().ok_or("values")?,
    };
    match kind.number {
        1 => repeat::<Int32Type>(&given),
        6 => repeat::<DoubleType>(&given),
        8 => repeat::<ByteArrayType>(&given),
        _ => return Err("no kind that is known here".to_string()),
    }
    .map_err(|e| e.to_string())
}

struct Given {
    kind: Kind,
    max_def: i16,
    max_rep: i16,
    times: i16,
    is_timed: bool,
    defs: Vec<i16>,
    reps: Vec<i16>,
    values: Vec<Vec<u8>>,
}

fn repeat<D: DataType<T: Typed>>(given: &Given) -> Written<()> {
    let values: Vec<D::T> = given.values.iter().filter_map(|value| D::T::typed(value)).collect();
    let properties = Arc::new(
        WriterProperties::builder()
            .set_writer_version(WriterVersion::PARQUET_1_0)
            .set_dictionary_enabled(false)
            .set_encoding(Encoding::PLAIN)
            .set_data_page_row_count_limit(512)
            .set_data_page_size_limit(4096)
            .set_statistics_enabled(EnabledStatistics::Page)
            .set_column_index_truncate_length(Some(64))
            .set_statistics_truncate_length(None)
            .build(),
    );
    let mut area = Vec::with_capacity(65535);
    let mut least = Duration::MAX;
    for turn in 0..given.times {
        let start = Instant::now();
        let (pages, bytes, nulls) = once::<D>(given, &values, &properties, &mut area)?;
        least = least.min(start.elapsed());
        if turn == 0 {
            println!("{pages} {bytes} {nulls}");
        }
    }
    if given.is_timed {
        println!("{}", least.subsec_nanos());
    }
    Ok(())
}

// Writes all levels and values in batches of 256 levels, with a page cut at each 1,024 levels, and closes.
fn once<D: DataType>(
    given: &Given,
    values: &[D::T],
    properties: &WriterPropertiesPtr,
    area: &mut Vec<u8>,
) -> Written<(usize, u64, u64)> {
    area.clear();
    area.extend(b"PAR1");
    let descr = column(given.kind, given.max_def, given.max_rep);
    let mut writer = ColumnWriterImpl::<D>::new(descr, properties.clone(), Box::new(Area(area)));
    let count = if given.max_def == 0 { values.len() } else { given.defs.len() };
    let mut values = values;
    for turn in 0..count.div_ceil(256) {
        let (from, to) = (turn * 256, (turn * 256 + 256).min(count));
        // Where there are no levels, all values given are taken, so no more are given than needed.
        let given_now = if given.max_def == 0 { &values[..to - from] } else { values };
        let taken = writer.mini_batch(given_now, to - from, part(&given.defs, from, to), part(&given.reps, from, to))?;
        values = &values[taken..];
        if turn % 4 == 3 {
            writer.cut()?;
        }
    }
    writer.cut()?;
    let nulls = writer.bounds().nulls;
    let closed = black_box(writer.close()?);
    let pages = closed.offset_index.map_or(0, |index| index.page_locations.len());
    Ok((pages, closed.bytes_written, nulls))
}

fn part(levels: &[i16], from: usize, to: usize) -> LevelDataRef<'_> {
    levels.get(from..to).map_or(LevelDataRef::Absent, LevelDataRef::from)
}

/// A page writer that puts the pages one behind the other.
struct Area<'a>(&'a mut Vec<u8>);

impl PageWriter for Area<'_> {
    fn write_page(&mut self, page: CompressedPage) -> Written<PageWriteSpec> {
        let mut spec = PageWriteSpec::new();
        spec.page_type = page.page_type();
        spec.uncompressed_size = page.uncompressed_size();
        spec.compressed_size = page.compressed_size();
        spec.num_values = page.num_values();
        spec.offset = self.0.len() as u64;
        spec.bytes_written = page.data().len() as u64;
        self.0.extend_from_slice(page.data());
        Ok(spec)
    }

    fn close(&mut self) -> Written<()> {
        Ok(())
    }
}

// What is written

#[derive(Clone, Copy)]
struct Shape {
    name: &'static str,
    max_def: i16,
    max_rep: i16,
    is_rising: bool,
}

const SHAPES: [Shape; 4] = [
    Shape { name: "flat", max_def: 0, max_rep: 0, is_rising: false },
    Shape { name: "rising", max_def: 0, max_rep: 0, is_rising: true },
    Shape { name: "optional", max_def: 1, max_rep: 0, is_rising: false },
    Shape { name: "nested", max_def: 2, max_rep: 1, is_rising: false },
];

const KINDS: [(u8, &str); 3] = [(1, "INT32"), (6, "DOUBLE"), (8, "BYTE_ARRAY")];

const SIZES: [usize; 4] = [512, 1024, 2048, 4096];

/// The last three lines of an input: one level in eight is null where D is above 0; rows of a nested column have four levels on
/// average; values are random, of 4 to 7 bytes where they are byte strings, or each above the one before.
fn work(kind: u8, shape: Shape, count: usize) -> String {
    let mut random = Random::new(7);
    let (mut defs, mut reps, mut values) = (String::new(), String::new(), vec![]);
    for at in 0..count {
        let def = match shape.max_def {
            0 => 0,
            max if random.one_in(8) => random.below(max as usize),
            max => max as usize,
        };
        if shape.max_def > 0 {
            let _ = write!(defs, "{def}");
        }
        if shape.max_rep > 0 {
            let rep = if at % 256 == 0 || random.one_in(4) { 0 } else { 1 };
            let _ = write!(reps, "{rep}");
        }
        if def == shape.max_def as usize {
            values.push(match kind {
                1 if shape.is_rising => hex(&(at as i32).to_le_bytes()),
                6 if shape.is_rising => hex(&(at as f64 / 64.0).to_le_bytes()),
                _ if shape.is_rising => hex(&(at as u32).to_be_bytes()),
                1 => hex(&(random.next() as i32).to_le_bytes()),
                6 => hex(&(random.next() as i32 as f64 / 64.0).to_le_bytes()),
                _ => {
                    let length = random.within(4, 7);
                    hex(&random.next().to_le_bytes()[..length])
                }
            });
        }
    }
    let or_none = |text: String| if text.is_empty() { "-".to_string() } else { text };
    format!("{}\n{}\n{}\n", or_none(defs), or_none(reps), values.join(","))
}

// What is measured

const RUNS: usize = 5;

const TIMES: usize = 200;

/// Without these, one instruction of the C library fills or copies a long stretch of memory, and callgrind counts it once for each
/// byte.
const NO_REPEATED_BYTES: &str =
    "glibc.cpu.x86_rep_stosb_threshold=1000000000:glibc.cpu.x86_rep_movsb_threshold=1000000000";

/// Runs a program over an input, and answers its output and standard error.
fn run(program: &[&str], input: &str) -> Result<(String, String), String> {
    let mut child = Command::new(program[0])
        .args(&program[1..])
        .env("GLIBC_TUNABLES", NO_REPEATED_BYTES)
        .stdin(Stdio::piped())
        .stdout(Stdio::piped())
        .stderr(Stdio::piped())
        .spawn()
        .map_err(|e| format!("{}: {e}", program[0]))?;
    let mut stdin = child.stdin.take().ok_or("no stdin")?;
    stdin.write_all(input.as_bytes()).map_err(|e| e.to_string())?;
    drop(stdin);
    let output = child.wait_with_output().map_err(|e| e.to_string())?;
    let text = |bytes: Vec<u8>| String::from_utf8_lossy(&bytes).into_owned();
    let (out, err) = (text(output.stdout), text(output.stderr));
    if !output.status.success() {
        return Err(format!("{}: {err}", program.join(" ")));
    }
    Ok((out, err))
}

/// How many instructions a program takes over an input.
fn instructions(program: &[&str], input: &str) -> Result<f64, String> {
    let mut valgrind = vec!["valgrind", "--tool=callgrind", "--callgrind-out-file=/dev/null"];
    valgrind.extend(program);
    let (_, said) = run(&valgrind, input)?;
    let count = said.lines().find_map(|line| line.split_once("Collected : "));
    let (_, count) = count.ok_or("callgrind gave no count")?;
    count.trim().parse().map_err(|_| format!("{count}: no count"))
}

/// The two numbers of the last line, in nanoseconds.
fn nanoseconds(program: &[&str], input: &str) -> Result<(f64, f64), String> {
    let (said, _) = run(program, input)?;
    let mut numbers = said.lines().last().unwrap_or("").split(' ').map(|word| word.parse().unwrap_or(0.0));
    Ok((numbers.next().unwrap_or(0.0), numbers.next().unwrap_or(0.0)))
}

/// Prints the table of our program beside this one.
pub fn table(ours: &str) -> Result<(), String> {
    let harness = std::env::current_exe().map_err(|e| e.to_string())?;
    let rust = [harness.to_str().ok_or("a path")?, "speed-write"];
    let ours = [ours];
    println!("All numbers but levels and pages are per level. instr. counts instructions (callgrind), which is repeatable; ns is wall");
    println!("time in nanoseconds, the least of {RUNS} runs of {TIMES} chunks each, the two sides in turn. A ratio is ours by the Rust's.");
    println!();
    println!("| kind | shape | levels | pages | instr. ours | instr. Rust | ratio | ns ours | ns Rust | ratio | read instr. | read ns |");
    println!("|---|---|---:|---:|---:|---:|---:|---:|---:|---:|---:|---:|");
    for (kind, name) in KINDS {
        for shape in SHAPES {
            for count in SIZES {
                let lines = work(kind, shape, count);
                let Shape { max_def, max_rep, .. } = shape;
                let input = |times: usize, reads: usize, clock: &str| {
                    format!("{kind} {max_def} {max_rep} {times} {reads}{clock}\n{lines}")
                };
                let (said, _) = run(&ours, &input(1, 0, ""))?;
                let (rust_said, _) = run(&rust, &input(1, 0, ""))?;
                if said.trim() != format!("{} 0", rust_said.trim()) {
                    return Err(format!("{name} {}: wrote {said} and {rust_said}", shape.name));
                }
                let pages = said.split(' ').next().unwrap_or("");
                let levels = count as f64;
                // A write more, and a read more, than once: what is neither stands in both.
                let once = instructions(&ours, &input(1, 1, ""))?;
                let written = (instructions(&ours, &input(2, 0, ""))? - instructions(&ours, &input(1, 0, ""))?) / levels;
                let read = (instructions(&ours, &input(1, 2, ""))? - once) / levels;
                let rust_written = (instructions(&rust, &input(2, 0, ""))? - instructions(&rust, &input(1, 0, ""))?) / levels;
                let mut least = (f64::MAX, f64::MAX, f64::MAX);
                for _ in 0..RUNS {
                    let (writing, reading) = nanoseconds(&ours, &input(TIMES, 1, " clock"))?;
                    let (rust_writing, _) = nanoseconds(&rust, &input(TIMES, 1, " clock"))?;
                    least = (least.0.min(writing), least.1.min(reading), least.2.min(rust_writing));
                }
                let (writing, reading, rust_writing) = (least.0 / levels, least.1 / levels, least.2 / levels);
                println!(
                    "| {name} | {} | {count} | {pages} | {written:.0} | {rust_written:.0} | {:.1} | {writing:.1} | {rust_writing:.1} | {:.1} | {read:.0} | {reading:.1} |",
                    shape.name,
                    written / rust_written,
                    writing / rust_writing,
                );
            }
        }
    }
    Ok(())
}
