//! Answers cases, a line for each line. What panics answers `panic`.

use super::chunks::Chunks;
use super::values;
use std::io::{self, BufRead, BufWriter, Write};
use std::panic::{self, AssertUnwindSafe};

pub fn lines() -> Result<(), String> {
    panic::set_hook(Box::new(|_| {}));
    let mut out = BufWriter::new(io::stdout().lock());
    let mut chunks = Chunks::default();
    for line in io::stdin().lock().lines() {
        let line = line.map_err(|e| e.to_string())?;
        let said = answer(&mut chunks, &line);
        writeln!(out, "{said}").map_err(|e| e.to_string())?;
    }
    out.flush().map_err(|e| e.to_string())
}

fn answer(chunks: &mut Chunks, line: &str) -> String {
    if line.starts_with('#') {
        return line.to_string();
    }
    let words: Vec<&str> = line.split(' ').collect();
    if let Some(said) = chunks.answer(&words) {
        return said;
    }
    match panic::catch_unwind(AssertUnwindSafe(|| values::answer(&words))) {
        Ok(Some(said)) => said,
        Ok(None) => "unread".to_string(),
        Err(_) => "panic".to_string(),
    }
}
