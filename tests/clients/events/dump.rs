//! Prints the events of output captures: `dump CAPTURE..`. See dump.py.
use toxicap::{delivered, events, Direction, NotOutput, What};

fn dump(capture: &[u8]) -> Result<(), NotOutput> {
    for (number, found) in events(capture)?.iter().enumerate() {
        for event in found {
            let way = if event.direction == Direction::Up { "up" } else { "down" };
            let text = match &event.what {
                What::Chunk(bytes) => bytes.iter().map(|byte| format!("{byte:02x}")).collect(),
                other => format!("{other:?}").to_lowercase(),
            };
            println!("{number} {} {way} {text}", event.time.as_nanos());
        }
    }
    for (number, lines) in delivered(capture)?.iter().enumerate() {
        for (way, line) in [("up", &lines.up), ("down", &lines.down)] {
            let chunks: Vec<_> = line.chunks.iter().map(|(time, bytes)| format!("{}:{}", time.as_nanos(), bytes.len())).collect();
            let end = line.end.map_or("open".to_string(), |(time, end)| format!("{}+{}", format!("{end:?}").to_lowercase(), time.as_nanos()));
            println!("{number} delivered {way} {end} {}", chunks.join(" "));
        }
    }
    Ok(())
}

fn main() {
    for path in std::env::args().skip(1) {
        println!("== {path}");
        if let Err(why) = dump(&std::fs::read(&path).expect("a capture")) {
            println!("{why}");
        }
    }
}
