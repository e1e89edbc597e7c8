//! Compares two files of answers to a file of cases, and names the class of each difference.

use super::chunk_classes::ChunkState;
use super::classes;
use super::line::Kind;
use std::collections::BTreeMap;
use std::fs;

#[derive(Default)]
struct Tally {
    cases: u64,
    alike: u64,
    known: u64,
    unlisted: u64,
}

struct Case<'a> {
    line: &'a str,
    rust: &'a str,
    ours: &'a str,
}

fn read(path: &str) -> Result<String, String> {
    fs::read_to_string(path).map_err(|e| format!("{path}: {e}"))
}

fn cases<'a>(cases: &'a str, rust: &'a str, ours: &'a str) -> Result<Vec<Case<'a>>, String> {
    let (lines, rust, ours): (Vec<_>, Vec<_>, Vec<_>) =
        (cases.lines().collect(), rust.lines().collect(), ours.lines().collect());
    if lines.len() != rust.len() || lines.len() != ours.len() {
        return Err(format!(
            "{} cases, {} answers of the Rust, {} of ours",
            lines.len(),
            rust.len(),
            ours.len()
        ));
    }
    let all = lines.into_iter().zip(rust).zip(ours);
    Ok(all.map(|((line, rust), ours)| Case { line, rust, ours }).collect())
}

/// What a case's answers are to each other: alike, of known classes, or neither.
enum Judged {
    Alike,
    Known(Vec<&'static str>),
    Unlisted,
}

fn judge(chunk: &mut ChunkState, words: &[&str], case: &Case) -> Judged {
    if chunk.takes(words) {
        return match chunk.classes(words, case.rust, case.ours) {
            Some(classes) if classes.is_empty() => Judged::Alike,
            Some(classes) => Judged::Known(classes),
            None => Judged::Unlisted,
        };
    }
    if case.rust == case.ours && case.rust != "unread" {
        return Judged::Alike;
    }
    match classes::of_values(words, case.rust, case.ours) {
        Some(class) => Judged::Known(vec![class]),
        None => Judged::Unlisted,
    }
}

/// Compares, prints what was met, and answers whether every difference is a known one.
pub fn compare(case_file: &str, rust_file: &str, our_file: &str) -> Result<bool, String> {
    let (lines, rust, ours) = (read(case_file)?, read(rust_file)?, read(our_file)?);
    let mut families: BTreeMap<&str, Tally> = BTreeMap::new();
    let mut classes: BTreeMap<&str, (u64, String)> = BTreeMap::new();
    let mut shown = 0;
    let mut chunk = ChunkState::default();
    for case in cases(&lines, &rust, &ours)? {
        if case.line.starts_with('#') {
            continue;
        }
        let words: Vec<&str> = case.line.split(' ').collect();
        let judged = judge(&mut chunk, &words, &case);
        let tally = families.entry(family(&chunk, &words)).or_default();
        tally.cases += 1;
        match judged {
            Judged::Alike => tally.alike += 1,
            Judged::Known(met) => {
                tally.known += 1;
                for class in met {
                    let (times, example) = classes.entry(class).or_default();
                    *times += 1;
                    let length = case.line.len() + case.rust.len() + case.ours.len();
                    if example.is_empty() || length < example.len() {
                        *example = format!("{} | the Rust: {} | ours: {}", case.line, case.rust, case.ours);
                    }
                }
            }
            Judged::Unlisted => {
                tally.unlisted += 1;
                if shown < 20 {
                    shown += 1;
                    println!(
                        "unlisted: {}\n  the Rust: {}\n  ours:     {}",
                        case.line, case.rust, case.ours
                    );
                }
            }
        }
    }
    println!(
        "{:<22} {:>9} {:>9} {:>9} {:>9}",
        "family", "cases", "alike", "known", "unlisted"
    );
    let mut sum = Tally::default();
    for (family, tally) in &families {
        println!(
            "{family:<22} {:>9} {:>9} {:>9} {:>9}",
            tally.cases, tally.alike, tally.known, tally.unlisted
        );
        sum.cases += tally.cases;
        sum.alike += tally.alike;
        sum.known += tally.known;
        sum.unlisted += tally.unlisted;
    }
    println!("\nknown differences met, with the shortest case of each");
    for (class, (times, example)) in &classes {
        println!("{times:>9}  {class}\n           {}", short(example));
    }
    println!(
        "\n{} cases: {} alike, {} known differences, {} unlisted",
        sum.cases, sum.alike, sum.known, sum.unlisted
    );
    Ok(sum.unlisted == 0)
}

fn short(text: &str) -> String {
    if text.len() <= 300 {
        text.to_string()
    } else {
        format!("{}..", &text[..300])
    }
}

/// Writes the cases and the Rust's answers as a program's stdin and stdout: where a known difference is met, a line before the
/// case names it and gives the Rust's answer, and the answer is ours.
pub fn list(case_file: &str, rust_file: &str, our_file: &str, folder: &str) -> Result<bool, String> {
    let (lines, rust, ours) = (read(case_file)?, read(rust_file)?, read(our_file)?);
    let (mut stdin, mut stdout) = (String::new(), String::new());
    let mut chunk = ChunkState::default();
    let mut of_class: BTreeMap<&str, u64> = BTreeMap::new();
    for case in cases(&lines, &rust, &ours)? {
        let words: Vec<&str> = case.line.split(' ').collect();
        let in_chunk = chunk.takes(&words);
        match judge(&mut chunk, &words, &case) {
            Judged::Alike => {}
            Judged::Known(met) => {
                let times = of_class.entry(met[0]).or_default();
                *times += 1;
                // Of each class a few cases on values; a chunk's lines belong together.
                if *times > 12 && !in_chunk {
                    continue;
                }
                let note = format!("# {}: the Rust answers {}\n", met.join("; "), case.rust);
                stdin += &note;
                stdout += &note;
            }
            Judged::Unlisted => return Err(format!("unlisted: {}", case.line)),
        }
        stdin += &format!("{}\n", case.line);
        stdout += &format!("{}\n", case.ours);
    }
    for (name, text) in [("stdin", stdin), ("stdout", stdout)] {
        fs::write(format!("{folder}/{name}"), text).map_err(|e| e.to_string())?;
    }
    Ok(true)
}

fn family(chunk: &ChunkState, words: &[&str]) -> &'static str {
    let kind = match words {
        ["greater" | "figures" | "update" | "cut", kind, ..] => Kind::read(kind),
        ["raise", ..] => return "bytes",
        ["raise-text", ..] => return "strings",
        ["levels", ..] => return "levels",
        _ => {
            return match chunk.kind().map(|kind| kind.number) {
                Some(1..=4) => "chunks of integers",
                Some(5..=7) => "chunks of floats",
                Some(8..=9) => "chunks of bytes",
                Some(10) => "chunks of strings",
                Some(_) => "chunks of decimals",
                None => "others",
            };
        }
    };
    match kind.map(|kind| kind.number) {
        Some(1..=4) => "integers",
        Some(5..=7) => "floats",
        Some(8..=9) => "bytes",
        Some(10) => "strings",
        Some(_) => "decimals",
        None => "others",
    }
}
