//! Runs the benchmark; with `stream`, the report on a stream, where the report program's path may follow; with `report`, the tally in Rust that
//! is measured there; with `earlier`, where it is linked, this engine beside an earlier one.
use std::{env, path::Path, process};

fn main() {
    let words: Vec<String> = env::args().skip(1).collect();
    let words: Vec<&str> = words.iter().map(String::as_str).collect();
    let done = match words.as_slice() {
        [] => bench::run(),
        ["stream"] => bench::stream::run(None),
        ["stream", report] => bench::stream::run(Some(Path::new(report))),
        ["report"] => bench::stream::report(),
        #[cfg(feature = "earlier")]
        ["earlier"] => bench::earlier::run(),
        _ => Err("bench [stream [REPORT] | report]".into()),
    };
    if let Err(message) = done {
        eprintln!("FAILED: {message}");
        process::exit(1);
    }
}
