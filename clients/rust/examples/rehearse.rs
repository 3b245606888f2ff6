//! Rehearses a capture under scenarios in this process, and stores what `toxicap --out .` does: rehearse CAPTURE SCENARIO..
//! HOSTS of the environment has lines NAME=ADDR.
use std::{env, fs, io, process};

fn named<T>(path: &str, read: io::Result<T>) -> io::Result<T> {
    read.map_err(|error| io::Error::new(error.kind(), format!("{path}: {error}")))
}

fn main() -> io::Result<()> {
    let paths: Vec<String> = env::args().skip(1).collect();
    let Some((capture, scenarios)) = paths.split_first() else {
        return Err(io::Error::other("rehearse CAPTURE SCENARIO.."));
    };
    let capture = named(capture, fs::read(capture))?;
    let texts = scenarios.iter().map(|path| named(path, fs::read_to_string(path))).collect::<io::Result<Vec<_>>>()?;
    let texts: Vec<&str> = texts.iter().map(|text| &**text).collect();
    let outputs = toxicap::rehearse(&capture, &texts, &env::var("HOSTS").unwrap_or_default(), 0).unwrap_or_else(|refusal| {
        eprintln!("{}\n{}", refusal.line(), refusal.hint);
        process::exit(1)
    });
    for (number, output) in outputs.iter().enumerate() {
        fs::write(format!("{number:04}.pcap"), &output.capture)?;
        fs::write(format!("{number:04}.txt"), &output.report)?;
    }
    Ok(())
}
