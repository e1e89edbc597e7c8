//! Answers cases on chunks by the rules alone: docs/RULES.md, 1, 2 and 4 to 9, read plainly, with nothing of the writer in
//! it but its order of values. It stands beside the library's own answers.

use super::columns::{Typed, column, with_type};
use super::line::{Kind, Levels, bit, hex, hex_or_none, unhex};
use crate::data_type::DataType;
use crate::door::ValueDoor;
use crate::schema::types::ColumnDescPtr;
use std::io::{self, BufRead, BufWriter, Write};

pub fn lines() -> Result<(), String> {
    let mut out = BufWriter::new(io::stdout().lock());
    let mut chunk = None;
    for line in io::stdin().lock().lines() {
        let line = line.map_err(|e| e.to_string())?;
        let said = answer(&mut chunk, &line).unwrap_or("unread".to_string());
        writeln!(out, "{said}").map_err(|e| e.to_string())?;
    }
    out.flush().map_err(|e| e.to_string())
}

fn answer(chunk: &mut Option<Chunk>, line: &str) -> Option<String> {
    if line.starts_with('#') {
        return Some(line.to_string());
    }
    let words: Vec<&str> = line.split(' ').collect();
    if let ["open", rest @ ..] = &words[..] {
        let mut opened = Chunk::open(rest)?;
        let allowed = opened.check();
        *chunk = Some(opened);
        return Some(match allowed {
            Ok(()) => "ok".to_string(),
            Err(refusal) => refusal.text(),
        });
    }
    let chunk = chunk.as_mut()?;
    let said = match words[..] {
        ["batch", count, defs, reps, values] => {
            let values = match values {
                "none" => vec![],
                values => values.split(',').map(unhex).collect::<Option<Vec<_>>>()?,
            };
            chunk.batch(count.parse().ok()?, &Levels::read(defs)?, &Levels::read(reps)?, &values)
        }
        ["cut"] => chunk.cut().map(|cut| bit(cut).to_string()),
        ["close"] => chunk.close().map(|cut| bit(cut).to_string()),
        ["report"] => return Some(chunk.report()),
        _ => return None,
    };
    Some(said.unwrap_or_else(|refusal| refusal.text()))
}

/// A refusal by its number and position.
struct Refusal(u8, usize);

impl Refusal {
    fn text(&self) -> String {
        let layer = match self.0 {
            12 | 25 => "sink",
            3 | 11 | 13 | 23 | 27 => "page",
            _ => "chunk",
        };
        format!("refused {} {layer} {}", self.0, self.1)
    }
}

fn refuse<T>(number: u8) -> Result<T, Refusal> {
    Err(Refusal(number, 0))
}

#[derive(Clone, Default)]
struct Page {
    defs: Vec<i16>,
    reps: Vec<i16>,
    values: Vec<Vec<u8>>,
}

struct Chunk {
    kind: Kind,
    width: usize,
    max_def: i16,
    max_rep: i16,
    version: u8,
    row_limit: usize,
    size_limit: usize,
    page_mode: bool,
    cut_length: Option<usize>,
    split: bool,
    area: usize,
    open: Page,
    waits: bool,
    closed: bool,
    refused: bool,
    pages: Vec<Page>,
}

impl Chunk {
    fn open(words: &[&str]) -> Option<Chunk> {
        let [
            kind,
            width,
            max_def,
            max_rep,
            version,
            rows,
            size,
            mode,
            cut,
            "packed",
            body,
            area,
        ] = words
        else {
            return None;
        };
        Some(Chunk {
            kind: Kind::read(kind)?,
            width: width.parse().ok()?,
            max_def: max_def.parse().ok()?,
            max_rep: max_rep.parse().ok()?,
            version: version.parse().ok()?,
            row_limit: rows.parse().ok()?,
            size_limit: size.parse().ok()?,
            page_mode: *mode == "page",
            cut_length: if *cut == "-" { None } else { Some(cut.parse().ok()?) },
            split: *body == "split",
            area: area.parse().ok()?,
            open: Page::default(),
            waits: false,
            closed: false,
            refused: false,
            pages: vec![],
        })
    }

    fn check(&mut self) -> Result<(), Refusal> {
        let width_fits = match (self.kind.width(), self.kind.number) {
            (Some(width), _) => self.width == width,
            (None, 9 | 12) => (1..=128).contains(&self.width),
            _ => self.width == 0,
        };
        let levels_fit = 0 <= self.max_rep && self.max_rep <= self.max_def && self.max_def <= 15;
        let refused = if !width_fits || !levels_fit {
            refuse(1)
        } else if !(1..=2).contains(&self.version)
            || !(1..=512).contains(&self.row_limit)
            || !(1..=4096).contains(&self.size_limit)
            || self.cut_length.is_some_and(|length| !(1..=64).contains(&length))
            || (self.split && self.width == 0)
        {
            refuse(2)
        } else {
            Ok(())
        };
        self.closed = refused.is_err();
        self.refused = refused.is_err();
        refused
    }

    fn batch(&mut self, count: usize, defs: &Levels, reps: &Levels, values: &[Vec<u8>]) -> Result<String, Refusal> {
        if self.closed {
            return refuse(21);
        }
        if self.waits {
            return refuse(22);
        }
        if count > 256 {
            return refuse(4);
        }
        let defs = needed_levels(defs, self.max_def, count);
        let reps = needed_levels(reps, self.max_rep, count);
        let (Some(defs), Some(reps)) = (defs, reps) else {
            return refuse(5);
        };
        if self.max_rep > 0 && reps.is_empty() {
            return refuse(5);
        }
        if defs.len() != count || reps.len() != count {
            return refuse(6);
        }
        for (levels, max) in [(&defs, self.max_def), (&reps, self.max_rep)] {
            if let Some(at) = levels.iter().position(|level| !(0..=max).contains(level)) {
                return Err(Refusal(7, at));
            }
        }
        if reps.first().is_some_and(|first| *first != 0) {
            return refuse(8);
        }
        let needed = defs.iter().filter(|level| **level == self.max_def).count();
        let Some(taken) = values.get(..needed) else {
            return refuse(9);
        };
        let sized = |value: &Vec<u8>| match self.width {
            0 => value.len() <= 128,
            width => value.len() == width,
        };
        if let Some(at) = taken.iter().position(|value| !sized(value)) {
            return Err(Refusal(10, at));
        }
        if self.plain(taken).len() > 4096 {
            return refuse(11);
        }
        if self.open.defs.len() + count > 1024 {
            return refuse(23);
        }
        self.open.defs.extend(defs);
        self.open.reps.extend(reps);
        self.open.values.extend_from_slice(taken);
        let due = rows(&self.open) >= self.row_limit || self.plain(&self.open.values).len() >= self.size_limit;
        let (mut cut, mut waiting) = (0, 0);
        if due && !self.open.defs.is_empty() {
            match self.turn() {
                Ok(()) => cut = 1,
                Err(refusal) => {
                    waiting = refusal.0;
                    self.waits = true;
                }
            }
        }
        Ok(format!("{needed} {cut} {waiting}"))
    }

    fn cut(&mut self) -> Result<bool, Refusal> {
        if self.closed {
            return refuse(21);
        }
        if self.open.defs.is_empty() {
            return Ok(false);
        }
        self.turn()?;
        Ok(true)
    }

    fn close(&mut self) -> Result<bool, Refusal> {
        let cut = self.cut()?;
        self.closed = true;
        Ok(cut)
    }

    // Writes the open page.
    fn turn(&mut self) -> Result<(), Refusal> {
        if self.pages.len() == 64 {
            return refuse(24);
        }
        let used: usize = self.pages.iter().map(|page| self.bytes(page).len()).sum();
        if !(4..=65535).contains(&self.area) || 4 + used + self.bytes(&self.open).len() > self.area {
            return refuse(25);
        }
        self.pages.push(std::mem::take(&mut self.open));
        self.waits = false;
        Ok(())
    }

    fn plain(&self, values: &[Vec<u8>]) -> Vec<u8> {
        let mut plain = vec![];
        for value in values {
            if self.width == 0 {
                plain.extend((value.len() as u32).to_le_bytes());
            }
            plain.extend(value);
        }
        plain
    }

    fn bytes(&self, page: &Page) -> Vec<u8> {
        let mut bytes = vec![];
        for (levels, max) in [(&page.reps, self.max_rep), (&page.defs, self.max_def)] {
            if max > 0 {
                let list = packed(levels, max);
                if self.version == 1 {
                    bytes.extend((list.len() as u32).to_le_bytes());
                }
                bytes.extend(list);
            }
        }
        if self.split {
            for at in 0..self.width {
                bytes.extend(page.values.iter().map(|value| value[at]));
            }
        } else {
            bytes.extend(self.plain(&page.values));
        }
        bytes
    }

    fn report(&self) -> String {
        if !self.closed || self.refused {
            return "no-record".to_string();
        }
        with_type!(self.kind, D => self.report_of::<D>())
    }

    fn report_of<D: DataType<T: Typed>>(&self) -> String {
        let figures = Figures::<D>::new(self.kind);
        let (mut said, mut offset, mut first) = (String::new(), 4, 0);
        let (mut whole, mut stored) = (vec![], vec![]);
        for page in &self.pages {
            let bytes = self.bytes(page);
            said += &format!("page {offset} {} {first} {}", bytes.len(), hex(&bytes));
            offset += bytes.len();
            first += rows(page);
            let (min, max, nans) = figures.of(&page.values);
            let lower = min.as_ref().map_or(vec![], |min| self.lower(min));
            let upper = max.as_ref().map_or(vec![], |max| self.upper(max));
            if self.page_mode {
                said += &format!(
                    " {} {} {} {} {} {} {}",
                    bit(page.values.is_empty()),
                    hex(&lower),
                    hex(&upper),
                    page.defs.len() - page.values.len(),
                    if self.has_nan() {
                        nans.to_string()
                    } else {
                        "-".to_string()
                    },
                    counts(&page.reps, self.max_rep),
                    counts(&page.defs, self.max_def)
                );
            }
            said += " | ";
            if let (Some(min), Some(max)) = (min, max) {
                whole.push((min, max));
                stored.push((lower, upper));
            }
        }
        let all = self.pages.iter().fold(Page::default(), |mut all, page| {
            all.defs.extend(&page.defs);
            all.reps.extend(&page.reps);
            all.values.extend_from_slice(&page.values);
            all
        });
        let (min, max, nans) = figures.of(&all.values);
        said += &format!(
            "record {} {} {} {} {} {} {} {} {}",
            rows(&all),
            all.defs.len(),
            all.defs.len() - all.values.len(),
            if self.has_nan() { nans } else { 0 },
            counts(&all.reps, self.max_rep),
            counts(&all.defs, self.max_def),
            hex_or_none(&min),
            hex_or_none(&max),
            offset - 4
        );
        if self.page_mode {
            let (ascending, descending) = figures.orders(&whole);
            let order = match figures.orders(&stored) {
                (true, _) => "1",
                (false, true) => "2",
                (false, false) => "0",
            };
            said += &format!(" {} {} {order}", bit(ascending), bit(descending));
        }
        said
    }

    fn has_nan(&self) -> bool {
        (5..=7).contains(&self.kind.number)
    }

    // The cut length, if the kind lets this value be cut.
    fn cuts(&self, value: &[u8]) -> Option<usize> {
        self.cut_length
            .filter(|length| (8..=10).contains(&self.kind.number) && *length < value.len())
    }

    fn text<'a>(&self, value: &'a [u8]) -> Option<&'a str> {
        std::str::from_utf8(value).ok().filter(|_| self.kind.number == 10)
    }

    fn lower(&self, value: &[u8]) -> Vec<u8> {
        let Some(length) = self.cuts(value) else {
            return value.to_vec();
        };
        let end = match self.text(value) {
            Some(text) => (1..=length).rev().find(|end| text.is_char_boundary(*end)),
            None => Some(length),
        };
        value[..end.unwrap_or(value.len())].to_vec()
    }

    fn upper(&self, value: &[u8]) -> Vec<u8> {
        let Some(length) = self.cuts(value) else {
            return value.to_vec();
        };
        let raised = match self.text(value) {
            Some(text) => raised_text(text, length),
            None => raised_bytes(&value[..length]),
        };
        raised.unwrap_or(value.to_vec())
    }
}

// The levels of a list, absent where they are needed and not given: 0 for each where the maximum is 0.
fn needed_levels(levels: &Levels, max: i16, count: usize) -> Option<Vec<i16>> {
    if max == 0 {
        return Some(vec![0; count]);
    }
    match levels {
        Levels::Absent => None,
        Levels::List(levels) => Some(levels.clone()),
        Levels::Uniform(value, count) => Some(vec![*value; *count]),
    }
}

fn rows(page: &Page) -> usize {
    page.reps.iter().filter(|level| **level == 0).count()
}

fn counts(levels: &[i16], max: i16) -> String {
    if max == 0 {
        return "-".to_string();
    }
    let counts: Vec<String> = (0..=max)
        .map(|level| levels.iter().filter(|other| **other == level).count().to_string())
        .collect();
    counts.join(",")
}

// One bit-packed run: the number 2 * groups + 1 in ULEB128, then eight levels a group, least significant bit first.
fn packed(levels: &[i16], max: i16) -> Vec<u8> {
    let width = (16 - max.leading_zeros()) as usize;
    let groups = levels.len().div_ceil(8);
    let mut bytes = vec![];
    let mut header = 2 * groups + 1;
    loop {
        let low = (header % 128) as u8;
        header /= 128;
        bytes.push(if header > 0 { low + 128 } else { low });
        if header == 0 {
            break;
        }
    }
    let mut bits: Vec<bool> = levels
        .iter()
        .flat_map(|level| (0..width).map(move |bit| (level >> bit) & 1 == 1))
        .collect();
    bits.resize(groups * 8 * width, false);
    bytes.extend(
        bits.chunks(8)
            .map(|byte| byte.iter().rev().fold(0, |sum, bit| 2 * sum + u8::from(*bit))),
    );
    bytes
}

fn raised_bytes(front: &[u8]) -> Option<Vec<u8>> {
    let at = front.iter().rposition(|byte| *byte < 0xFF)?;
    let mut raised = front[..=at].to_vec();
    raised[at] += 1;
    raised.resize(front.len(), 0);
    Some(raised)
}

fn raised_text(text: &str, length: usize) -> Option<Vec<u8>> {
    let end = (1..=length).rev().find(|end| text.is_char_boundary(*end))?;
    let mut front: Vec<char> = text[..end].chars().collect();
    while let Some(last) = front.pop() {
        let next = char::from_u32(last as u32 + 1).filter(|next| next.len_utf8() == last.len_utf8());
        if let Some(next) = next {
            front.push(next);
            return Some(front.into_iter().collect::<String>().into_bytes());
        }
    }
    None
}

/// Figures of lists of values, as they are defined: the first value that is greater than no other, and so on.
struct Figures<D: DataType> {
    descr: ColumnDescPtr,
    data_type: std::marker::PhantomData<D>,
}

impl<D: DataType<T: Typed>> Figures<D> {
    fn new(kind: Kind) -> Self {
        Figures {
            descr: column(kind, 0, 0),
            data_type: std::marker::PhantomData,
        }
    }

    fn greater(&self, a: &[u8], b: &[u8]) -> bool {
        match (D::T::typed(a), D::T::typed(b)) {
            (Some(a), Some(b)) => D::T::greater(&self.descr, &a, &b),
            _ => false,
        }
    }

    fn is_nan(&self, value: &[u8]) -> bool {
        D::T::typed(value).is_some_and(|value| D::T::nan(&self.descr, &value))
    }

    // Smallest, largest and NaN count.
    fn of(&self, values: &[Vec<u8>]) -> (Option<Vec<u8>>, Option<Vec<u8>>, usize) {
        let numbers: Vec<&Vec<u8>> = values.iter().filter(|value| !self.is_nan(value)).collect();
        let nans = values.len() - numbers.len();
        let considered = if numbers.is_empty() {
            values.iter().collect()
        } else {
            numbers
        };
        let mut min: Option<&Vec<u8>> = None;
        let mut max: Option<&Vec<u8>> = None;
        for value in considered {
            if min.is_none_or(|min| self.greater(min, value)) {
                min = Some(value);
            }
            if max.is_none_or(|max| self.greater(value, max)) {
                max = Some(value);
            }
        }
        (min.cloned(), max.cloned(), nans)
    }

    fn orders(&self, pairs: &[(Vec<u8>, Vec<u8>)]) -> (bool, bool) {
        let above =
            |a: &(Vec<u8>, Vec<u8>), b: &(Vec<u8>, Vec<u8>)| self.greater(&a.0, &b.0) || self.greater(&a.1, &b.1);
        (
            pairs.windows(2).all(|pair| !above(&pair[0], &pair[1])),
            pairs.windows(2).all(|pair| !above(&pair[1], &pair[0])),
        )
    }
}
