//! The known differences of chunks. A chunk is compared line by line, up to a call that one side refuses and the other does
//! not; what then follows in it counts under that call's class.

use super::classes::{self, bounds_as_bytes};
use super::columns::{Typed, column, with_type};
use super::line::{Kind, Levels, hex, unhex};
use crate::data_type::DataType;
use crate::door::ValueDoor;

pub const REFUSED_ALIKE: &str = "Refused in both";
pub const HALF_REFUSED: &str = "A refused batch leaves its marks";
pub const PANICKED: &str = "After a panic";

/// The chunk that a file of cases is at.
#[derive(Default)]
pub struct ChunkState {
    kind: Option<Kind>,
    cut: Option<usize>,
    /// Why the chunks are no longer the same.
    apart: Option<&'static str>,
}

impl ChunkState {
    pub fn kind(&self) -> Option<Kind> {
        self.kind
    }

    /// Whether the line is one on chunks; an `open` begins another chunk.
    pub fn takes(&mut self, words: &[&str]) -> bool {
        match words {
            ["open", kind, .., cut, _, _, _] => {
                *self = ChunkState {
                    kind: Kind::read(kind),
                    cut: cut.parse().ok(),
                    apart: None,
                };
                true
            }
            ["batch", _, _, _, _] | ["cut"] | ["close"] | ["report"] => true,
            _ => false,
        }
    }

    /// The classes of the differences in the answers to a line, none where they are alike; absent where one has no class.
    pub fn classes(&mut self, words: &[&str], rust: &str, ours: &str) -> Option<Vec<&'static str>> {
        if let Some(apart) = self.apart {
            return Some(if rust == ours { vec![] } else { vec![apart] });
        }
        let rust_refuses = rust == "panic" || rust.starts_with("refused");
        if let Some(refusal) = ours.strip_prefix("refused ") {
            let number = refusal.split(' ').next()?;
            let class = if rust_refuses { REFUSED_ALIKE } else { limit(number)? };
            // The Rust has encoded definition levels, or both, by the time that it refuses.
            self.apart = Some(match rust {
                "panic" => PANICKED,
                _ if rust_refuses => HALF_REFUSED,
                _ => class,
            });
            return Some(vec![class]);
        }
        if rust_refuses {
            return None;
        }
        match words {
            ["report"] => self.report(rust, ours),
            ["batch", ..] if rust != ours => self.waiting(rust, ours),
            _ => (rust == ours).then_some(vec![]),
        }
    }

    // A batch whose page is due and waits, where the Rust wrote it.
    fn waiting(&mut self, rust: &str, ours: &str) -> Option<Vec<&'static str>> {
        let (taken, waiting) = ours.split_once(" 0 ")?;
        if waiting == "0" || rust != format!("{taken} 1 0") {
            return None;
        }
        let class = limit(waiting)?;
        self.apart = Some(class);
        Some(vec![class])
    }

    fn report(&self, rust: &str, ours: &str) -> Option<Vec<&'static str>> {
        let mut met = vec![];
        let (rust, ours): (Vec<_>, Vec<_>) = (sections(rust), sections(ours));
        if rust.len() != ours.len() {
            return None;
        }
        let (rust_record, rust_pages) = rust.split_last()?;
        let (our_record, our_pages) = ours.split_last()?;
        for (at, (rust, ours)) in rust_pages.iter().zip(our_pages).enumerate() {
            let next = our_pages.get(at + 1).map(|page| page[3]).unwrap_or(our_record[1]);
            let rows = next.parse::<u64>().ok()? - ours[3].parse::<u64>().ok()?;
            // Offset, size, first row and bytes are alike in any case.
            if rust[..5] != ours[..5] {
                return None;
            }
            if rust == ours {
                continue;
            }
            if rust.len() == 5 && ours.len() == 12 {
                // The Rust has no index: some page has no value and other rows than nulls.
                met.push(classes::GIVEN_UP);
                continue;
            }
            if rust.len() != 12 || ours.len() != 12 || rust[8..] != ours[8..] {
                return None;
            }
            let nulls = ours[8].parse::<u64>().ok()?;
            if rust[5..8] == ["1", "-", "-"] && ours[5] == "0" && rows == nulls {
                met.push(classes::NULL_MARK);
            } else if rust[5] == ours[5] && rust[5] == "0" {
                let (min, max) = (unhex(ours[6])?, unhex(ours[7])?);
                let (lower, _) = bounds_as_bytes(&min, self.cut?);
                let (_, upper) = bounds_as_bytes(&max, self.cut?);
                if rust[6] != hex(&lower) || rust[7] != hex(&upper) {
                    return None;
                }
                met.push(classes::decimal_class(self.kind?, &min, &lower, &max, &upper)?);
            } else {
                return None;
            }
        }
        if met.contains(&classes::GIVEN_UP) && !self.gives_up(our_pages, our_record)? {
            return None;
        }
        if rust_record != our_record {
            met.extend(self.records(rust_record, our_record, our_pages, &met)?);
        }
        met.sort();
        met.dedup();
        Some(met)
    }

    // Whether some page has no value and other rows than nulls.
    fn gives_up(&self, pages: &[Vec<&str>], record: &[&str]) -> Option<bool> {
        for (at, page) in pages.iter().enumerate() {
            let next = pages.get(at + 1).map(|page| page[3]).unwrap_or(record[1]);
            let rows = next.parse::<u64>().ok()? - page[3].parse::<u64>().ok()?;
            if page[5] == "1" && rows != page[8].parse::<u64>().ok()? {
                return Some(true);
            }
        }
        Some(false)
    }

    fn records(
        &self,
        rust: &[&str],
        ours: &[&str],
        pages: &[Vec<&str>],
        met: &[&'static str],
    ) -> Option<Vec<&'static str>> {
        if rust.len() != 13 || ours.len() != 13 || rust[..10] != ours[..10] {
            return None;
        }
        let mut found = vec![];
        // The Rust's flags leave out pages that it marks null, and stop where it gives its index up.
        if rust[10..12] != ours[10..12] {
            if !met.contains(&classes::NULL_MARK) && !met.contains(&classes::GIVEN_UP) {
                return None;
            }
            found.push(classes::FLAGS);
        }
        if rust[12] != ours[12] {
            if rust[12] != "-" {
                let order = self.stored_order(pages)?;
                if ours[12] != order {
                    return None;
                }
                found.push(classes::STORED_ORDER);
            } else if !met.contains(&classes::GIVEN_UP) {
                return None;
            }
        }
        Some(found)
    }

    // The order of the stored bounds, by the sources' own comparison.
    fn stored_order(&self, pages: &[Vec<&str>]) -> Option<&'static str> {
        let kind = self.kind?;
        let mut bounds = vec![];
        for page in pages.iter().filter(|page| page[5] == "0") {
            bounds.push((unhex(page[6])?, unhex(page[7])?));
        }
        with_type!(kind, D => order_of::<D>(kind, &bounds))
    }
}

fn order_of<D: DataType<T: Typed>>(kind: Kind, bounds: &[(Vec<u8>, Vec<u8>)]) -> Option<&'static str> {
    let descr = column(kind, 0, 0);
    let bounds: Option<Vec<(D::T, D::T)>> = bounds
        .iter()
        .map(|(min, max)| Some((D::T::typed(min)?, D::T::typed(max)?)))
        .collect();
    let bounds = bounds?;
    let above = |a: &D::T, b: &D::T| D::T::greater(&descr, a, b);
    let ascending = bounds
        .windows(2)
        .all(|w| !above(&w[0].0, &w[1].0) && !above(&w[0].1, &w[1].1));
    let descending = bounds
        .windows(2)
        .all(|w| !above(&w[1].0, &w[0].0) && !above(&w[1].1, &w[0].1));
    Some(match (ascending, descending) {
        (true, _) => "1",
        (false, true) => "2",
        (false, false) => "0",
    })
}

// A page has the words `page`, offset, size, first row, bytes, and in Page mode null mark, bounds, nulls, NaN and counts.
fn sections(report: &str) -> Vec<Vec<&str>> {
    report
        .split(" | ")
        .map(|section| section.split(' ').collect())
        .collect()
}

// What the Rust takes and this library refuses.
fn limit(number: &str) -> Option<&'static str> {
    Some(match number {
        "1" | "2" => "Columns and settings that are not allowed",
        "4" => "More than 256 levels in a batch",
        "5" => "Levels that are needed are absent",
        "6" => "A list's count is not the level count",
        "7" => "Levels out of range",
        "10" => "Values of wrong length",
        "11" => "More than 4,096 plain bytes in a batch",
        "22" | "24" => "More than 64 pages",
        "23" => "More than 1,024 levels in a page",
        "25" => "The sink is full",
        _ => return None,
    })
}
