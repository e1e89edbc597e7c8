//! The words of the line format, as README.md has them.

use crate::column::writer::LevelDataRef;

/// Bytes in hexadecimal; `-` is no bytes.
pub fn hex(bytes: &[u8]) -> String {
    if bytes.is_empty() {
        return "-".to_string();
    }
    bytes.iter().map(|byte| format!("{byte:02x}")).collect()
}

pub fn unhex(text: &str) -> Option<Vec<u8>> {
    if text == "-" {
        return Some(vec![]);
    }
    if text.len() % 2 != 0 {
        return None;
    }
    (0..text.len() / 2)
        .map(|at| u8::from_str_radix(text.get(2 * at..2 * at + 2)?, 16).ok())
        .collect()
}

/// Bytes that may be absent: `none`.
pub fn hex_or_none(bytes: &Option<Vec<u8>>) -> String {
    bytes.as_ref().map_or("none".to_string(), |bytes| hex(bytes))
}

pub fn bit(is: bool) -> &'static str {
    if is { "1" } else { "0" }
}

/// Levels: `-` absent, `:1,0` a list, `=1*3` a value so many times.
pub enum Levels {
    Absent,
    List(Vec<i16>),
    Uniform(i16, usize),
}

impl Levels {
    pub fn read(text: &str) -> Option<Levels> {
        if text == "-" {
            return Some(Levels::Absent);
        }
        if let Some(list) = text.strip_prefix(':') {
            let levels: Result<_, _> = list
                .split(',')
                .filter(|level| !level.is_empty())
                .map(|level| level.parse())
                .collect();
            return levels.ok().map(Levels::List);
        }
        let (value, count) = text.strip_prefix('=')?.split_once('*')?;
        Some(Levels::Uniform(value.parse().ok()?, count.parse().ok()?))
    }

    pub fn as_ref(&self) -> LevelDataRef<'_> {
        match self {
            Levels::Absent => LevelDataRef::Absent,
            Levels::List(levels) => LevelDataRef::from(levels.as_slice()),
            Levels::Uniform(value, count) => LevelDataRef::Uniform {
                value: *value,
                count: *count,
            },
        }
    }
}

/// A kind by its number, and whether its column is decorated by a converted type alone.
#[derive(Clone, Copy, PartialEq, Eq)]
pub struct Kind {
    pub number: u8,
    pub converted: bool,
}

impl Kind {
    pub fn read(text: &str) -> Option<Kind> {
        let (number, converted) = match text.strip_suffix('c') {
            Some(number) => (number, true),
            None => (text, false),
        };
        let number = number.parse().ok().filter(|n| (1..=12).contains(n))?;
        Some(Kind { number, converted })
    }

    /// The width of a kind of numbers.
    pub fn width(self) -> Option<usize> {
        match self.number {
            1 | 2 | 5 => Some(4),
            3 | 4 | 6 => Some(8),
            7 => Some(2),
            _ => None,
        }
    }
}
