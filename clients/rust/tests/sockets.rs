//! Sockets over what the library gives, from the root of the repository, and over lines made by hand.
use std::io::{self, ErrorKind, Read, Write};
use std::net::Shutdown;
use std::time::Duration;
use toxicap::{Delivered, End, Line, Socket};

const SECOND: Duration = Duration::from_secs(1);

#[cfg(feature = "native")]
/// What a socket gives, read in pieces of these sizes: bytes, each with the clock's time, and the error that it ends with.
fn read_all(mut socket: Socket, mut size: usize) -> (Vec<(Duration, u8)>, Option<ErrorKind>) {
    let mut found = Vec::new();
    loop {
        let mut piece = vec![0; 1 + size % 97];
        size = (size * 31 + 7) % 9973;
        match socket.read(&mut piece) {
            Ok(0) => return (found, None),
            Ok(len) => found.extend(piece[..len].iter().map(|byte| (socket.now(), *byte))),
            Err(error) => return (found, Some(error.kind())),
        }
    }
}

#[cfg(feature = "native")]
#[test]
fn reads_of_any_size() {
    use std::fs;
    use toxicap::{delivered, rehearse};
    for (capture, scenario) in [
        ("samples/shop.pcap", "examples/mobile-line.json"),
        ("samples/shop.pcap", "examples/reset_peer.json"),
        ("samples/http-get.pcap", "examples/slicer.json"),
        ("samples/http-get.pcap", "examples/timeout.json"),
        ("samples/http-get.pcap", "examples/limit_data.json"),
    ] {
        let (capture, scenario) = (fs::read(capture).unwrap(), fs::read_to_string(scenario).unwrap());
        let outputs = rehearse(&capture, &[&scenario, "[]"], "redis=10.77.0.3", 0).unwrap();
        let recorded = delivered(&outputs[1].capture).unwrap();
        for (lines, recorded) in delivered(&outputs[0].capture).unwrap().iter().zip(&recorded) {
            let fails = !matches!(lines.down.end, Some((_, End::Fin)));
            let came = lines.down.chunks.iter();
            let expected: Vec<_> = came.flat_map(|(time, bytes)| bytes.iter().map(|byte| (*time, *byte))).collect();
            for size in 0..5 {
                // one that asks at the recorded times gets answers at those of the output, if it reads by then
                let mut asked = Socket::client(lines, recorded).unwrap().same_requests();
                let mut has_failed = false; // by a reset that came before
                for (time, bytes) in &recorded.up.chunks {
                    asked.advance(*time - asked.now());
                    has_failed |= asked.write_all(bytes).is_err();
                }
                asked.advance(recorded.up.end.map_or(Duration::ZERO, |(time, _)| time - asked.now()));
                asked.shutdown(Shutdown::Write).unwrap();
                for (socket, has_failed) in [(Socket::reader(&lines.down).unwrap(), false), (asked, has_failed)] {
                    let begun = socket.now();
                    let expected: Vec<_> = expected.iter().map(|(time, byte)| (begun.max(*time), *byte)).collect();
                    let (found, error) = read_all(socket, size);
                    assert_eq!((found, error.is_some()), (expected, fails && !has_failed));
                }
            }
        }
    }
}

/// A line of chunks, each with the second when it comes.
fn line(chunks: &[(u32, &str)], end: Option<(u32, End)>) -> Line {
    let mut line = Line::default();
    line.chunks.extend(chunks.iter().map(|(time, text)| (*time * SECOND, text.as_bytes().to_vec())));
    line.end = end.map(|(time, end)| (time * SECOND, end));
    line
}

fn both(up: Line, down: Line) -> Delivered {
    let mut both = Delivered::default();
    (both.up, both.down) = (up, down);
    both
}

/// What a read gives as text, or why it fails.
fn text(socket: &mut Socket) -> Result<String, String> {
    let mut room = [0; 40];
    socket.read(&mut room).map(|len| String::from_utf8_lossy(&room[..len]).into()).map_err(|error| told(&error).to_string())
}

/// An error by the word of tests/clients/sockets/rows.
fn told(error: &io::Error) -> &'static str {
    match (error.kind(), &*error.to_string()) {
        (ErrorKind::WouldBlock, _) => "timeout",
        (ErrorKind::ConnectionReset, _) => "reset",
        (ErrorKind::BrokenPipe, _) => "broken",
        (ErrorKind::Other, why) if why.starts_with("other bytes") => "other",
        (ErrorKind::Other, why) if why.starts_with("a read after ") => "unasked",
        (ErrorKind::Other, why) if why.starts_with("nothing comes") || why.starts_with("a read while this side is open") => "forever",
        _ => panic!("{error}"),
    }
}

/// The lines of a row, or of what stands for them.
fn lines(words: &[Vec<&str>], names: [&str; 2]) -> Line {
    let name = names.into_iter().find(|name| words.iter().any(|each| each[0] == *name));
    let mut line = Line::default();
    for each in words.iter().filter(|each| Some(each[0]) == name) {
        let time = Duration::from_millis(each[1].parse().unwrap());
        match each[2] {
            "fin" => line.end = Some((time, End::Fin)),
            "reset" => line.end = Some((time, End::Reset)),
            text => line.chunks.push((time, text.as_bytes().to_vec())),
        }
    }
    line
}

#[test]
fn rows() {
    let rows: Vec<_> = include_str!("../../../tests/clients/sockets/rows").split("\n== ").skip(1).collect();
    assert!(rows.len() > 10);
    for row in rows {
        let words: Vec<Vec<&str>> = row.lines().skip(1).filter(|line| !line.is_empty()).map(|line| line.split(' ').collect()).collect();
        let output = both(lines(&words, ["up", "recorded-up"]), lines(&words, ["down"; 2]));
        let recorded = both(lines(&words, ["recorded-up"; 2]), lines(&words, ["recorded-down", "down"]));
        let mut socket = Socket::client(&output, &recorded).unwrap();
        for call in &words {
            let time = call.last().and_then(|time| time.parse().ok()).map(Duration::from_millis);
            match call[0] {
                "timeout" => socket.set_read_timeout(time).unwrap(),
                "advance" => socket.advance(time.unwrap()),
                "shut" => socket.shutdown(Shutdown::Write).unwrap(),
                "same" => socket = socket.same_requests(),
                "write" => assert_eq!(socket.write_all(call[1].as_bytes()).map_or_else(|error| told(&error), |()| "taken"), call[2], "{row}"),
                "read" => {
                    let found = text(&mut socket).unwrap_or_else(|told| told);
                    assert_eq!((if found.is_empty() { "fin" } else { &found }, socket.now()), (call[1], time.unwrap()), "{row}");
                }
                _ => {}
            }
        }
    }
}

#[test]
fn wrong_uses() -> io::Result<()> {
    let recorded = both(line(&[(0, "GET a"), (4, "GET b")], None), line(&[(3, "A"), (6, "B")], None));
    let late = both(recorded.up.clone(), line(&[(13, "A"), (16, "B")], None));
    let client = Socket::client(&late, &recorded)?;
    for invalid in [client.set_read_timeout(Some(Duration::ZERO)), client.set_write_timeout(Some(Duration::ZERO))] {
        assert_eq!(invalid.unwrap_err().kind(), ErrorKind::InvalidInput);
    }
    let refused = line(&[], Some((0, End::Refused)));
    assert_eq!(Socket::reader(&refused).unwrap_err().kind(), ErrorKind::ConnectionRefused);
    for (output, recorded) in [(&recorded, &late), (&late, &both(Line::default(), line(&[(3, "C")], None)))] {
        assert_eq!(Socket::client(output, recorded).unwrap_err().kind(), ErrorKind::InvalidInput);
    }
    let mut client = client.same_requests();
    client.try_clone()?.write_all(b"GE")?;
    assert_eq!(client.write(b"L a").unwrap_err().to_string(), "other bytes are sent than the recorded ones, from byte 2 on");
    Ok(())
}

#[test]
fn a_server() -> io::Result<()> {
    let recorded = both(line(&[(0, "GET a"), (4, "GET b")], None), line(&[(3, "A"), (6, "B")], None));
    let mut server = Socket::server(&recorded, &recorded)?;
    assert_eq!((text(&mut server), text(&mut server)), (Ok("GET a".into()), Err("unasked".into())));
    server.advance(9 * SECOND);
    server.write_all(b"A")?;
    assert_eq!((text(&mut server), server.now()), (Ok("GET b".into()), 10 * SECOND));
    Ok(())
}

#[test]
fn reads_that_join_chunks() -> io::Result<()> {
    let down = line(&[(1, "a"), (1, "b"), (2, "c"), (4, "d"), (9, "e")], Some((9, End::Fin)));
    let by = |mut socket: Socket| (0..6).map(|_| text(&mut socket).unwrap()).collect::<Vec<_>>();
    assert_eq!(by(Socket::reader(&down)?), ["a", "b", "c", "d", "e", ""]);
    assert_eq!(by(Socket::reader(&down)?.joined(Duration::ZERO)), ["ab", "c", "d", "e", "", ""]);
    assert_eq!(by(Socket::reader(&down)?.joined(SECOND)), ["abc", "d", "e", "", "", ""]);
    let socket = Socket::reader(&down)?.joined(Duration::ZERO);
    socket.advance(4 * SECOND);
    assert_eq!(by(socket), ["abcd", "e", "", "", "", ""]);
    // a chunk whose request was not sent is not joined
    let recorded = both(line(&[(0, "1"), (2, "2")], None), line(&[(1, "a"), (3, "b")], None));
    let mut client = Socket::client(&recorded, &recorded)?.joined(9 * SECOND);
    client.write_all(b"1")?;
    assert_eq!(text(&mut client), Ok("a".into()));
    client.write_all(b"2")?;
    client.advance(SECOND);
    client.shutdown(Shutdown::Read)?;
    assert_eq!((text(&mut client), text(&mut client)), (Ok("b".into()), Ok("".into())));
    Ok(())
}
