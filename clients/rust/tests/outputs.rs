//! Outputs, their reports as data and their differences, from the root of the repository.
use std::time::Duration;
use std::{error::Error, fs, io};
use toxicap::{delivered, difference, events, rehearse, reports, End, Kind, Refusal, Report};

const LATE: &str = r#"[{"name": "web", "upstream": "10.77.0.2:80", "toxics": [{"type": "latency", "attributes": {"latency": 100}}]}]"#;

fn sample(name: &str) -> Vec<u8> {
    fs::read(format!("samples/{name}.pcap")).unwrap()
}

#[test]
fn what_comes() -> io::Result<()> {
    let capture = sample("http-get");
    assert_eq!((rehearse(&capture, &[], "", 0)?, reports(&capture, &[], "", 0)?), (vec![], vec![]));
    let outputs = rehearse(&capture, &["[]", LATE], "", 0)?;
    assert_eq!(reports(&capture, &["[]", LATE], "", 0)?, [&*outputs[0].report, &*outputs[1].report]);
    let texts = [format!("{:?}", outputs[0]), format!("{:?}", delivered(&outputs[0].capture)?), format!("{:?}", events(&outputs[0].capture)?)];
    for (text, most) in texts.iter().zip([500, 500, 800]) {
        assert!(text.len() < most && text.contains(" bytes \""), "{text}");
    }
    Ok(())
}

#[test]
fn reports_as_data() -> io::Result<()> {
    let outputs = rehearse(&sample("http-get"), &["[]", LATE], "", 0)?;
    let report = outputs[1].parsed().unwrap();
    let connection = &report.connections[0];
    assert_eq!((report.counts["scenario"], report.counts["segment"], report.connections.len()), (1, 12, 1));
    assert_eq!((connection.client.port(), connection.server.port(), connection.vlan, connection.proxy), (59690, 80, None, Some(0)));
    let down = &connection.down;
    assert_eq!((down.delivered, down.recorded, down.lost, down.end), (216, 216, 0, Some(End::Fin)));
    assert_eq!((down.at, down.max), (Some(Duration::from_micros(103_653)), Duration::from_millis(100)));
    let micro = Duration::from_micros(1);
    for (old, new, end, proxy) in
        [("fin+103653", "refused", Some(End::Refused), Some(0)), ("proxy 0", "proxy -", Some(End::Fin), None), ("fin+103653", "open", None, Some(0))]
    {
        let parsed = Report::parse(&outputs[1].report.replace(old, new), micro).unwrap();
        assert_eq!((parsed.connections[0].down.end, parsed.connections[0].proxy), (end, proxy));
    }
    let tagged = Report::parse(&outputs[1].report.replace(":80 ", ":80 vlan 7 "), Duration::from_nanos(1)).unwrap();
    assert_eq!((tagged.connections[0].vlan, tagged.connections[0].down.max), (Some(7), Duration::from_micros(100)));
    let lines: Vec<&str> = outputs[1].report.split_inclusive('\n').collect();
    for torn in ["", lines[0], &lines[..2].concat(), outputs[1].report.trim_end(), &outputs[1].report.replace("up", "on"), &lines[1..].concat()] {
        assert_eq!(Report::parse(torn, micro), None, "{torn}");
    }
    for sample in ["shop", "http-get"] {
        let report = rehearse(&self::sample(sample), &["[]"], "", 0)?.remove(0).parsed().unwrap();
        assert_eq!(report.connections.len() as u64, report.counts["connections"]);
    }
    Ok(())
}

#[test]
fn differences() -> io::Result<()> {
    let outputs = rehearse(&sample("http-get"), &["[]", LATE], "", 0)?;
    let (expected, late) = (&outputs[0].capture, &outputs[1].capture);
    assert_eq!(difference(expected, expected)?, None);
    let found = difference(expected, late)?.unwrap();
    let text = "connection 0, down, chunk 0: 186 bytes \"HTTP/1.0 200 OK\\r\\nSer..\" at ";
    assert!(found.starts_with(text) && found.ends_with("ms came"), "{found}");
    let mut other = expected.clone();
    let place = other.windows(5).position(|bytes| bytes == b"Hello").unwrap();
    other[place] = b'J';
    assert!(difference(expected, &other)?.unwrap().ends_with(": others came from byte 0 on"));
    other.clone_from(expected);
    other[24 + 16] ^= 1; // of an Ethernet address
    assert_eq!(difference(expected, &other)?.unwrap(), "what is delivered is the same, and the bytes differ from byte 40 on");
    let shop = &rehearse(&sample("shop"), &["[]"], "", 0)?[0].capture;
    assert!(difference(shop, &shop[..24])?.unwrap().ends_with(" connections, and 0 came"));
    assert!(difference(expected, &sample("shop")).is_err());
    Ok(())
}

#[test]
fn kinds() {
    let capture = sample("http-get");
    let refusal = rehearse(&capture, &["[", "[]"], "", 0).unwrap_err();
    assert_eq!((refusal.kind, refusal.to_string().starts_with("refused 10 NotJson scenario 0: ")), (Kind::NotJson, true));
    assert_eq!(refusal.source().unwrap().downcast_ref(), Some(&Kind::NotJson));
    let fault = io::Error::from(refusal.clone());
    assert_eq!(fault.get_ref().unwrap().downcast_ref::<Refusal>(), Some(&refusal));
}
