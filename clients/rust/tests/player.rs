//! Players over lines made by hand, to clients on 127.0.0.1. What has to come late is looked at for its least time only.
#![cfg(target_os = "linux")]
use std::io::{self, ErrorKind, Read, Write};
use std::net::{Shutdown, TcpStream};
use std::time::{Duration, Instant};
use std::{env, fs};
use toxicap::{delivered, steps, Delivered, End, Line, Player, Serving, What};

const SHORT: Duration = Duration::from_millis(300);

/// A line of chunks, each with its milliseconds.
fn line(chunks: &[(u64, &[u8])], end: Option<(u64, End)>) -> Line {
    let mut line = Line::default();
    line.chunks.extend(chunks.iter().map(|(time, bytes)| (Duration::from_millis(*time), bytes.to_vec())));
    line.end = end.map(|(time, end)| (Duration::from_millis(time), end));
    line
}

fn both(up: Line, down: Line) -> Delivered {
    let mut both = Delivered::default();
    (both.up, both.down) = (up, down);
    both
}

/// Two questions; a client that closes to ask; and a server that speaks first. Answers are late by these milliseconds.
fn sessions(late: u64) -> Vec<Delivered> {
    vec![
        both(line(&[(0, b"one?"), (9, b"two?")], None), line(&[(5 + late, b"1"), (12 + late, b"22"), (13 + late, b"333")], None)),
        both(line(&[(0, b"sum")], Some((5, End::Fin))), line(&[(9 + late, b"6")], Some((10 + late, End::Fin)))),
        both(line(&[(9, b"bye")], None), line(&[(5 + late, b"hello")], Some((10 + late, End::Fin)))),
    ]
}

fn play(late: u64, numbers: &[usize]) -> Player {
    Player::new(&sessions(late), &sessions(0)).unwrap().connections(numbers.iter().copied()).unwrap().limit(60 * Duration::from_secs(1))
}

fn connect(serving: &Serving) -> TcpStream {
    let client = TcpStream::connect(serving.address()).unwrap();
    client.set_read_timeout(Some(Duration::from_secs(60))).unwrap();
    client
}

/// What a client gets for a request: `size` bytes, or fewer at the end.
fn ask(mut client: &TcpStream, request: &[u8], size: u64) -> String {
    client.write_all(request).unwrap();
    let mut found = String::new();
    client.take(size).read_to_string(&mut found).unwrap();
    found
}

/// Nothing comes for a while.
fn is_silent(mut client: &TcpStream) -> bool {
    client.set_read_timeout(Some(SHORT)).unwrap();
    let found = client.read(&mut [0; 9]);
    client.set_read_timeout(Some(Duration::from_secs(60))).unwrap();
    matches!(found, Err(fault) if fault.kind() == ErrorKind::WouldBlock)
}

#[test]
fn answers() -> io::Result<()> {
    let serving = play(0, &[0, 1, 2]).factor(2.0).serve()?;
    let clients = [connect(&serving), connect(&serving), connect(&serving)];
    assert!(is_silent(&clients[0]));
    assert!(ask(&clients[0], b"on", 0).is_empty() && is_silent(&clients[0]));
    assert_eq!((ask(&clients[0], b"e?", 1), ask(&clients[0], b"two?", 5)), ("1".into(), "22333".into()));
    assert!(ask(&clients[1], b"sum", 0).is_empty() && is_silent(&clients[1]));
    clients[1].shutdown(Shutdown::Write)?;
    assert_eq!((ask(&clients[1], b"", 9), ask(&clients[2], b"bye", 9)), ("6".into(), "hello".into()));
    assert_eq!(TcpStream::connect(serving.address()).unwrap_err().kind(), ErrorKind::ConnectionRefused);
    drop(clients);
    assert_eq!(serving.wait()?, [&b"one?two?"[..], b"sum", b"bye"]);
    Ok(())
}

#[test]
fn times() -> io::Result<()> {
    for (player, least) in [(play(250, &[0]), 255), (play(250, &[0]).factor(0.5), 127), (play(250, &[0]).without_pauses(), 250)] {
        let serving = player.serve()?;
        let (client, begun) = (connect(&serving), Instant::now());
        assert_eq!(ask(&client, b"one?", 1), "1");
        assert!(begun.elapsed() >= Duration::from_millis(least));
        serving.close()?;
    }
    let slow = [both(Line::default(), line(&[(0, b"a"), (0, b"b"), (0, b"c")], None))];
    let serving = Player::new(&slow, &slow)?.gap(SHORT).serve()?;
    let (client, begun) = (connect(&serving), Instant::now());
    assert!(ask(&client, b"", 3) == "abc" && begun.elapsed() >= 2 * SHORT);
    drop(client);
    serving.wait().map(drop)
}

#[test]
fn ends() -> io::Result<()> {
    let recorded = [both(Line::default(), line(&[(1, b"hello")], Some((9, End::Fin))))];
    let reset = [both(Line::default(), line(&[(1, b"he")], Some((9, End::Reset))))];
    let serving = Player::new(&reset, &recorded)?.serve()?;
    let (mut client, mut found) = (connect(&serving), Vec::new());
    assert_eq!((client.read_to_end(&mut found).unwrap_err().kind(), &found[..]), (ErrorKind::ConnectionReset, &b"he"[..]));
    serving.wait()?;
    let refused = [both(Line::default(), line(&[], Some((0, End::Refused))))];
    let serving = Player::new(&refused, &recorded)?.serve()?;
    assert_eq!(TcpStream::connect(serving.address()).unwrap_err().kind(), ErrorKind::ConnectionRefused);
    serving.close()?;
    for (output, numbers, told) in [
        (&[recorded[0].clone(), refused[0].clone()][..], &[0, 1][..], "connection 1 is refused and connection 0 is not: one port cannot do both"),
        (&recorded, &[], "there is no connection"),
        (&recorded, &[3], "there is no connection 3: there are 1, from 0 on"),
    ] {
        let whole = vec![recorded[0].clone(); output.len()];
        let fault = Player::new(output, &whole)?.connections(numbers.iter().copied()).and_then(Player::serve).unwrap_err();
        assert!(fault.kind() == ErrorKind::InvalidInput && fault.to_string().starts_with(told), "{fault}");
    }
    for wrong in [Player::new(&recorded, &reset), Player::new(&recorded, &[])] {
        assert_eq!(wrong.unwrap_err().kind(), ErrorKind::InvalidInput);
    }
    Ok(())
}

/// The steps of outputs, in the folder OUTPUTS, are those of the helper for Python, in the file STEPS.
#[test]
fn steps_of_outputs() -> io::Result<()> {
    let (Ok(folder), Ok(expected)) = (env::var("OUTPUTS"), env::var("STEPS")) else { return Ok(()) };
    let expected = fs::read_to_string(expected)?;
    let mut found = String::new();
    for name in expected.lines().filter_map(|line| line.strip_prefix("== ")) {
        found += &format!("== {name}\n");
        let [output, recorded] = ["0000", "0001"].map(|number| delivered(&fs::read(format!("{folder}/{name}/{number}.pcap")).unwrap()).unwrap());
        for (number, (output, recorded)) in output.iter().zip(&recorded).enumerate() {
            for step in steps(output, recorded)? {
                let closed = if step.closed { "closed" } else { "open" };
                let what = match step.what {
                    What::Chunk(bytes) => bytes.iter().map(|byte| format!("{byte:02x}")).collect(),
                    end => format!("{end:?}").to_lowercase(),
                };
                found += &format!("{number} {} {closed} {} {} {what}\n", step.need, step.pause.as_nanos(), step.delay.as_nanos());
            }
        }
    }
    assert_eq!(found, expected);
    Ok(())
}

/// What a player ends with, after a talk with it.
fn fault(player: Player, talk: impl FnOnce(TcpStream) -> Option<TcpStream>) -> (ErrorKind, String) {
    let serving = player.serve().unwrap();
    let (address, stays) = (serving.address(), talk(connect(&serving)));
    let fault = serving.wait().unwrap_err();
    drop(stays);
    let text = fault.to_string();
    (fault.kind(), text.strip_prefix(&format!("player: port {}: ", address.port())).unwrap().to_string())
}

#[test]
fn limits() {
    let missing =
        |number: usize, request: &'static [u8]| fault(play(0, &[number]).limit(SHORT), |client| (&client).write_all(request).map(|()| client).ok());
    let late = |text: &str| (ErrorKind::TimedOut, format!("{text} (limit 300ms)"));
    assert_eq!(missing(0, b"on"), late("connection 0: the client sent 2 of 4 bytes"));
    assert_eq!(missing(1, b"sum"), late("connection 1: the client sent 3 of 3 bytes and did not close"));
    assert_eq!(missing(2, b"bye"), late("connection 2: the client did not close"));
    assert_eq!(fault(play(0, &[0, 2]).limit(SHORT), |_| None), late("1 of 2 clients came"));
    let much = vec![b'x'; 1 << 24];
    let flood = [both(line(&[(0, b"?")], None), line(&[(1, &much)], None))];
    let (kind, told) = fault(Player::new(&flood, &flood).unwrap().limit(SHORT), |mut client| client.write_all(b"?").map(|()| client).ok());
    assert!(kind == ErrorKind::TimedOut && told.starts_with("connection 0: the client left 1"), "{told}");
    // an answer that is under way is none of the client's time
    let serving = play(400, &[2]).limit(SHORT).serve().unwrap();
    assert_eq!(ask(&connect(&serving), b"bye", 9), "hello");
    serving.close().unwrap();
    for serving in [play(0, &[0]).limit(SHORT).serve().unwrap().wait(), play(0, &[0]).serve().unwrap().close()] {
        assert!(serving.unwrap_err().to_string().contains(": no client came"));
    }
    drop(play(0, &[0]).serve().unwrap());
}

#[test]
fn requests() {
    let (kind, told) = fault(play(0, &[0]).same_requests(), |mut client| client.write_all(b"one?tWo?").map(|()| client).ok());
    assert_eq!((kind, &*told), (ErrorKind::InvalidData, "connection 0: the client sent \"Wo?\" at byte 5, and the recorded one \"wo?\""));
    let (kind, told) = fault(play(0, &[0]), |mut client| {
        while client.write_all(&[0; 65536]).is_ok() {}
        None
    });
    assert!(kind == ErrorKind::InvalidData && told.ends_with(" bytes more than the recorded one"), "{told}");
    let serving = play(0, &[0]).same_requests().serve().unwrap();
    assert_eq!(ask(&connect(&serving), b"one?", 1), "1");
    assert_eq!(serving.close().unwrap(), [b"one?"]);
}
