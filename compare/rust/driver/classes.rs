//! The known differences by name, each recognised from the case and both answers. docs/DIFFERENCES.md has them all.

use super::line::{Kind, bit, hex, unhex};
use crate::door::Raises;

pub const FLOAT16_LENGTH: &str = "Float16 values of wrong length";
pub const NUMBER_LENGTH: &str = "Numbers of wrong length";
pub const DECIMAL_CUT: &str = "Decimals on BYTE_ARRAY are cut";
pub const DECIMAL_CUT_WRONG: &str = "Decimals on BYTE_ARRAY are cut, to a bound on the wrong side";
pub const FIXED_CUT: &str = "Decimals on FIXED_LEN_BYTE_ARRAY by converted type alone are cut";
pub const FIXED_CUT_WRONG: &str =
    "Decimals on FIXED_LEN_BYTE_ARRAY by converted type alone are cut, to a bound on the wrong side";
pub const SLICE: &str = "Slices of levels";
pub const NULL_MARK: &str = "Null mark";
pub const GIVEN_UP: &str = "An index given up";
pub const FLAGS: &str = "Flags over pages marked null";
pub const STORED_ORDER: &str = "The boundary order";

/// The class of a case on values in which the answers differ, absent where no class is known.
pub fn of_values(words: &[&str], rust: &str, ours: &str) -> Option<&'static str> {
    match words {
        ["greater" | "figures" | "update", kind, values @ ..] => {
            let kind = Kind::read(kind)?;
            let width = kind.width()?;
            let wrong = values
                .iter()
                .filter(|value| **value != "none")
                .any(|value| unhex(value).is_some_and(|value| value.len() != width));
            match (kind.number, rust) {
                (7, "panic") if wrong => Some(FLOAT16_LENGTH),
                // Nothing is compared with no old value.
                (7, _) if wrong && words[2] == "none" => Some(FLOAT16_LENGTH),
                (1..=6, "untyped") if wrong => Some(NUMBER_LENGTH),
                _ => None,
            }
        }
        ["cut", kind, length, value] => {
            let (kind, length) = (Kind::read(kind)?, length.parse().ok()?);
            let value = unhex(value)?;
            let as_bytes = cut_as_bytes(&value, length);
            let whole = format!("{} 0 {} 0", hex(&value), hex(&value));
            if rust != as_bytes || ours != whole {
                return None;
            }
            let (lower, upper) = bounds_as_bytes(&value, length);
            decimal_class(kind, &value, &lower, &value, &upper)
        }
        ["levels", _, _, offset, len, levels] => {
            let (front, slice) = rust.rsplit_once(' ')?;
            let (our_front, our_slice) = ours.rsplit_once(' ')?;
            let (offset, len): (usize, usize) = (offset.parse().ok()?, len.parse().ok()?);
            let known = match levels.strip_prefix('=') {
                Some(uniform) => {
                    let (value, count) = uniform.split_once('*')?;
                    let count: usize = count.parse().ok()?;
                    slice == format!("={value}*{len}") && offset.checked_add(len).is_none_or(|end| end > count)
                }
                None => slice == "panic",
            };
            (front == our_front && our_slice == "none" && known).then_some(SLICE)
        }
        _ => None,
    }
}

/// The class of bounds that a decimal's smallest and largest value are cut to.
pub fn decimal_class(kind: Kind, min: &[u8], lower: &[u8], max: &[u8], upper: &[u8]) -> Option<&'static str> {
    let wrong = lower.decimal_greater(min) || max.decimal_greater(upper);
    match (kind.number, kind.converted, wrong) {
        (11, _, false) => Some(DECIMAL_CUT),
        (11, _, true) => Some(DECIMAL_CUT_WRONG),
        (12, true, false) => Some(FIXED_CUT),
        (12, true, true) => Some(FIXED_CUT_WRONG),
        _ => None,
    }
}

// Both cuts of a value as bytes.
fn cut_as_bytes(value: &[u8], length: usize) -> String {
    let (lower, upper) = bounds_as_bytes(value, length);
    format!(
        "{} {} {} {}",
        hex(&lower),
        bit(lower.len() < value.len()),
        hex(&upper),
        bit(upper.len() < value.len())
    )
}

/// The lower and the upper bound of a value cut as bytes.
pub fn bounds_as_bytes(value: &[u8], length: usize) -> (Vec<u8>, Vec<u8>) {
    if value.len() <= length {
        return (value.to_vec(), value.to_vec());
    }
    let lower = value[..length].to_vec();
    let mut upper = lower.clone();
    let upper = match upper.iter().rposition(|byte| *byte < 0xFF) {
        Some(at) => {
            upper[at] += 1;
            upper[at + 1..].fill(0);
            upper
        }
        None => value.to_vec(),
    };
    (lower, upper)
}
