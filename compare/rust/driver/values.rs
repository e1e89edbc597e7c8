//! Answers cases on values.

use super::columns::{Typed, column, with_type};
use super::line::{Kind, Levels, bit, hex, hex_or_none, unhex};
use crate::column::page::{CompressedPage, PageWriteSpec, PageWriter};
use crate::column::writer::ColumnWriterImpl;
use crate::column::writer::encoder::{ColumnValueEncoder, ColumnValueEncoderImpl};
use crate::data_type::{AsBytes, DataType};
use crate::door::{ChunkDoor, LevelDoor, Raises, ValueDoor};
use crate::errors::Result;
use crate::file::properties::{WriterProperties, WriterPropertiesPtr};
use std::panic::{self, AssertUnwindSafe};
use std::sync::{Arc, OnceLock};

pub fn answer(words: &[&str]) -> Option<String> {
    match words {
        ["greater", kind, a, b] => {
            let (kind, a, b) = (Kind::read(kind)?, unhex(a)?, unhex(b)?);
            Some(with_type!(kind, D => greater::<D>(kind, &a, &b)))
        }
        ["figures", kind, values @ ..] => {
            let kind = Kind::read(kind)?;
            let values = values.iter().map(|value| unhex(value)).collect::<Option<Vec<_>>>()?;
            Some(with_type!(kind, D => figures::<D>(kind, &values)))
        }
        ["update", kind, old, value] => {
            let (kind, value) = (Kind::read(kind)?, unhex(value)?);
            let old = match *old {
                "none" => None,
                old => Some(unhex(old)?),
            };
            Some(with_type!(kind, D => update::<D>(kind, old.as_deref(), &value)))
        }
        ["cut", kind, length, value] => {
            let (kind, length, value) = (Kind::read(kind)?, length.parse().ok()?, unhex(value)?);
            Some(with_type!(kind, D => cut::<D>(kind, length, &value)))
        }
        ["raise", value] => Some(hex_or_none(&unhex(value)?[..].raised())),
        ["raise-text", value] => {
            let value = unhex(value)?;
            Some(hex_or_none(&std::str::from_utf8(&value).ok()?.raised()))
        }
        ["levels", total, max, offset, len, levels] => {
            let (total, max) = (total.parse().ok()?, max.parse().ok()?);
            let (offset, len) = (offset.parse().ok()?, len.parse().ok()?);
            Some(of_levels(&Levels::read(levels)?, total, max, offset, len))
        }
        _ => None,
    }
}

const UNTYPED: &str = "untyped";

fn greater<D: DataType<T: Typed>>(kind: Kind, a: &[u8], b: &[u8]) -> String {
    let (Some(a), Some(b)) = (D::T::typed(a), D::T::typed(b)) else {
        return UNTYPED.to_string();
    };
    let descr = column(kind, 0, 0);
    format!(
        "{} {}",
        bit(D::T::greater(&descr, &a, &b)),
        bit(D::T::greater(&descr, &b, &a))
    )
}

// `get_min_max` is private to encoder.rs: it is reached through `write` of a new encoder, whose flushed page has its answer.
fn figures<D: DataType<T: Typed>>(kind: Kind, values: &[Vec<u8>]) -> String {
    let values: Option<Vec<D::T>> = values.iter().map(|value| D::T::typed(value)).collect();
    let Some(values) = values else {
        return UNTYPED.to_string();
    };
    let descr = column(kind, 0, 0);
    let props = plain_properties();
    let column_props = props.resolve_column_properties(descr.path());
    let mut encoder = ColumnValueEncoderImpl::<D>::try_new(&descr, &props, &column_props).unwrap();
    encoder.write(&values, 0, values.len()).unwrap();
    let page = encoder.flush_data_page().unwrap();
    match (page.min_value, page.max_value) {
        (Some(min), Some(max)) => {
            let nans = page.nan_count.unwrap_or(0);
            format!("{} {} {nans}", hex(min.as_bytes()), hex(max.as_bytes()))
        }
        _ => "none".to_string(),
    }
}

fn update<D: DataType<T: Typed>>(kind: Kind, old: Option<&[u8]>, value: &[u8]) -> String {
    let Some(value) = D::T::typed(value) else {
        return UNTYPED.to_string();
    };
    let mut min = match old.map(D::T::typed) {
        Some(None) => return UNTYPED.to_string(),
        old => old.flatten(),
    };
    let mut max = min.clone();
    let descr = column(kind, 0, 0);
    D::T::into_min(&descr, &value, &mut min);
    D::T::into_max(&descr, &value, &mut max);
    let text = |value: Option<D::T>| value.map_or("none".to_string(), |value| hex(value.as_bytes()));
    format!("{} {}", text(min), text(max))
}

fn cut<D: DataType>(kind: Kind, length: usize, value: &[u8]) -> String {
    let writer = ColumnWriterImpl::<D>::new(column(kind, 0, 0), plain_properties(), Box::new(NoPages));
    let (lower, lower_cut, upper, upper_cut) = writer.cuts(length, value);
    format!("{} {} {} {}", hex(&lower), bit(lower_cut), hex(&upper), bit(upper_cut))
}

fn of_levels(levels: &Levels, total: usize, max: i16, offset: usize, len: usize) -> String {
    let levels = levels.as_ref();
    let text = |level: Option<i16>| level.map_or("none".to_string(), |level| level.to_string());
    let slice = panic::catch_unwind(AssertUnwindSafe(|| levels.slice(offset, len).text()));
    format!(
        "{} {} {} {} {}",
        levels.len(),
        text(levels.first()),
        text(levels.value_at(offset)),
        levels.value_count(total, max),
        slice.unwrap_or("panic".to_string())
    )
}

fn plain_properties() -> WriterPropertiesPtr {
    static PROPERTIES: OnceLock<WriterPropertiesPtr> = OnceLock::new();
    PROPERTIES
        .get_or_init(|| Arc::new(WriterProperties::builder().set_dictionary_enabled(false).build()))
        .clone()
}

/// Takes no page: cases on values write none.
struct NoPages;

impl PageWriter for NoPages {
    fn write_page(&mut self, _: CompressedPage) -> Result<PageWriteSpec> {
        Err(general_err!("no pages here"))
    }

    fn close(&mut self) -> Result<()> {
        Ok(())
    }
}
