//! Answers cases on whole chunks: `open`, then calls, then `report`.

use super::columns::{Typed, column, with_type};
use super::line::{Kind, Levels, bit, hex, hex_or_none, unhex};
use crate::basic::{BoundaryOrder, Encoding};
use crate::column::page::{CompressedPage, PageWriteSpec, PageWriter};
use crate::column::writer::{ColumnCloseResult, ColumnWriterImpl};
use crate::data_type::DataType;
use crate::door::{Bounds, ChunkDoor};
use crate::errors::Result;
use crate::file::metadata::LevelHistogram;
use crate::file::properties::{EnabledStatistics, WriterProperties, WriterVersion};
use std::panic::{self, AssertUnwindSafe};
use std::sync::{Arc, Mutex};

/// The chunk that the last `open` made.
#[derive(Default)]
pub struct Chunks {
    chunk: Option<Box<dyn Chunk>>,
}

trait Chunk {
    fn batch(&mut self, count: usize, defs: &Levels, reps: &Levels, values: &[Vec<u8>]) -> Result<String>;
    fn cut(&mut self) -> Result<String>;
    fn close(&mut self) -> Result<String>;
    fn report(&self) -> String;
}

impl Chunks {
    /// The answer to a line on chunks, absent if the line is on something else.
    pub fn answer(&mut self, words: &[&str]) -> Option<String> {
        match words {
            ["open", rest @ ..] => {
                let opened = panic::catch_unwind(AssertUnwindSafe(|| open(rest)));
                self.chunk = opened.unwrap_or(None);
                Some(if self.chunk.is_some() { "ok" } else { "refused" }.to_string())
            }
            ["batch", count, defs, reps, values] => {
                let count = count.parse().ok()?;
                let (defs, reps) = (Levels::read(defs)?, Levels::read(reps)?);
                let values = match *values {
                    "none" => vec![],
                    values => values.split(',').map(unhex).collect::<Option<Vec<_>>>()?,
                };
                Some(self.call(|chunk| chunk.batch(count, &defs, &reps, &values)))
            }
            ["cut"] => Some(self.call(|chunk| chunk.cut())),
            ["close"] => Some(self.call(|chunk| chunk.close())),
            ["report"] => Some(self.call(|chunk| Ok(chunk.report()))),
            _ => None,
        }
    }

    // A chunk in which a call panicked is spent: its later lines have no answer.
    fn call(&mut self, call: impl FnOnce(&mut dyn Chunk) -> Result<String>) -> String {
        let Some(chunk) = &mut self.chunk else {
            return "spent".to_string();
        };
        match panic::catch_unwind(AssertUnwindSafe(|| call(chunk.as_mut()))) {
            Ok(Ok(said)) => said,
            Ok(Err(e)) => format!("refused {}", e.to_string().replace(' ', "_")),
            Err(_) => {
                self.chunk = None;
                "panic".to_string()
            }
        }
    }
}

fn open(words: &[&str]) -> Option<Box<dyn Chunk>> {
    let [
        kind,
        _width,
        max_def,
        max_rep,
        version,
        rows,
        size,
        mode,
        cut,
        "packed",
        body,
        _area,
    ] = words
    else {
        return None;
    };
    let kind = Kind::read(kind)?;
    let page_mode = match *mode {
        "page" => true,
        "chunk" => false,
        _ => return None,
    };
    let cut = match *cut {
        "-" => None,
        cut => Some(cut.parse().ok()?),
    };
    let properties = WriterProperties::builder()
        .set_writer_version(match *version {
            "1" => WriterVersion::PARQUET_1_0,
            "2" => WriterVersion::PARQUET_2_0,
            _ => return None,
        })
        .set_dictionary_enabled(false)
        .set_encoding(match *body {
            "plain" => Encoding::PLAIN,
            "split" => Encoding::BYTE_STREAM_SPLIT,
            _ => return None,
        })
        .set_data_page_row_count_limit(rows.parse().ok()?)
        .set_data_page_size_limit(size.parse().ok()?)
        .set_statistics_enabled(if page_mode {
            EnabledStatistics::Page
        } else {
            EnabledStatistics::Chunk
        })
        .set_column_index_truncate_length(cut)
        .set_statistics_truncate_length(None)
        .build();
    let descr = column(kind, max_def.parse().ok()?, max_rep.parse().ok()?);
    let pages = Pages::default();
    Some(with_type!(kind, D => Box::new(Written::<D> {
        writer: Some(ColumnWriterImpl::new(descr, Arc::new(properties), Box::new(pages.clone()))),
        pages,
        page_mode,
        closed: None,
    })))
}

struct Written<D: DataType> {
    writer: Option<ColumnWriterImpl<'static, D>>,
    pages: Pages,
    page_mode: bool,
    closed: Option<(ColumnCloseResult, Bounds)>,
}

impl<D: DataType<T: Typed>> Chunk for Written<D> {
    fn batch(&mut self, count: usize, defs: &Levels, reps: &Levels, values: &[Vec<u8>]) -> Result<String> {
        // A number of wrong length cannot be given: the list ends before it.
        let values: Vec<D::T> = values.iter().map_while(|value| D::T::typed(value)).collect();
        let before = self.pages.count();
        let taken = self
            .writer()?
            .mini_batch(&values, count, defs.as_ref(), reps.as_ref())?;
        Ok(format!("{taken} {} 0", self.pages.count() - before))
    }

    fn cut(&mut self) -> Result<String> {
        Ok(bit(self.writer()?.cut()?).to_string())
    }

    fn close(&mut self) -> Result<String> {
        let said = self.cut()?;
        if let Some(writer) = self.writer.take() {
            let bounds = writer.bounds();
            self.closed = Some((writer.close()?, bounds));
        }
        Ok(said)
    }

    fn report(&self) -> String {
        let Some((closed, bounds)) = &self.closed else {
            return "no-record".to_string();
        };
        let mut said = String::new();
        let pages = self.pages.0.lock().unwrap();
        let places = closed
            .offset_index
            .as_ref()
            .map(|index| &index.page_locations[..])
            .unwrap_or(&[]);
        for (at, (page, place)) in pages.bytes.iter().zip(places).enumerate() {
            let (offset, size, first) = (place.offset, place.compressed_page_size, place.first_row_index);
            said += &format!("page {offset} {size} {first} {}", hex(page));
            if let Some(index) = &closed.column_index {
                let entry = &index.entries[at];
                let nans = entry.nan_count.map_or("-".to_string(), |nans| nans.to_string());
                let (reps, defs) = &index.histograms[at];
                said += &format!(
                    " {} {} {} {} {nans} {} {}",
                    bit(entry.null_page),
                    hex(&entry.min),
                    hex(&entry.max),
                    entry.null_count,
                    counts(reps),
                    counts(defs)
                );
            }
            said += " | ";
        }
        said += &format!(
            "record {} {} {} {} {} {} {} {} {}",
            closed.rows_written,
            closed.metadata.num_values,
            bounds.nulls,
            bounds.nans.unwrap_or(0),
            counts(&closed.metadata.repetition_level_histogram),
            counts(&closed.metadata.definition_level_histogram),
            hex_or_none(&bounds.min),
            hex_or_none(&bounds.max),
            closed.bytes_written
        );
        if self.page_mode {
            let order = match closed.column_index.as_ref().map(|index| index.boundary_order) {
                Some(BoundaryOrder::UNORDERED) => "0",
                Some(BoundaryOrder::ASCENDING) => "1",
                Some(BoundaryOrder::DESCENDING) => "2",
                None => "-",
            };
            said += &format!(" {} {} {order}", bit(bounds.ascending), bit(bounds.descending));
        }
        said
    }
}

impl<D: DataType> Written<D> {
    fn writer(&mut self) -> Result<&mut ColumnWriterImpl<'static, D>> {
        self.writer.as_mut().ok_or_else(|| general_err!("closed"))
    }
}

/// How often each level was met, `-` where the maximum is 0.
fn counts(histogram: &Option<LevelHistogram>) -> String {
    let Some(histogram) = histogram else {
        return "-".to_string();
    };
    let counts: Vec<String> = histogram.values().iter().map(|count| count.to_string()).collect();
    counts.join(",")
}

/// A page writer that keeps the pages one after the other behind the four bytes PAR1.
#[derive(Clone, Default)]
struct Pages(Arc<Mutex<Kept>>);

#[derive(Default)]
struct Kept {
    bytes: Vec<Vec<u8>>,
    end: usize,
}

impl Pages {
    fn count(&self) -> usize {
        self.0.lock().unwrap().bytes.len()
    }
}

impl PageWriter for Pages {
    fn write_page(&mut self, page: CompressedPage) -> Result<PageWriteSpec> {
        let mut kept = self.0.lock().unwrap();
        let data = page.data().to_vec();
        let mut spec = PageWriteSpec::new();
        spec.page_type = page.page_type();
        spec.uncompressed_size = page.uncompressed_size();
        spec.compressed_size = page.compressed_size();
        spec.num_values = page.num_values();
        spec.offset = 4 + kept.end as u64;
        spec.bytes_written = data.len() as u64;
        kept.end += data.len();
        kept.bytes.push(data);
        Ok(spec)
    }

    fn close(&mut self) -> Result<()> {
        Ok(())
    }
}
