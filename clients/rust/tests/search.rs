//! Searches, against rows that were worked out by hand (tests/clients/search.json), from the root of the repository.
#[allow(dead_code)]
#[path = "../src/json.rs"]
mod json;

use json::Value;
use std::collections::HashMap;
use std::io::Write;
use std::ops::ControlFlow;
use std::process::{Command, Stdio};
use std::sync::Mutex;
use std::{fs, io};
use toxicap::{Kind, Output, Search, SearchError};

const CUT: &str =
    r#"[{"name": "web", "upstream": "10.77.0.2:80", "toxics": [{"type": "limit_data", "toxicity_ppm": 20000, "attributes": {"bytes": 50}}]}]"#;

fn sample(name: &str) -> Vec<u8> {
    fs::read(format!("samples/{name}.pcap")).unwrap()
}

/// Whether a text has what a regular expression says.
fn has(expression: &str, text: &str) -> io::Result<bool> {
    let mut grep = Command::new("grep").args(["-qPz", expression]).stdin(Stdio::piped()).spawn()?;
    let _ = grep.stdin.take().unwrap().write_all(text.as_bytes());
    Ok(grep.wait()?.success())
}

fn is_cut(outputs: &[Output]) -> bool {
    outputs[0].report.contains(" down 50/216/0 close")
}

#[test]
fn rows() {
    let Some(Value::List(rows)) = Value::read(&mut include_str!("../../../tests/clients/search.json")) else { panic!("no rows") };
    for mut row in rows {
        let mut text = |path: &[&str]| row.at(path).map(|value| value.to_string());
        let plain = |text: Option<String>| text.unwrap().trim_matches('"').replace("\\n", "\n");
        let (name, capture, hosts) = (plain(text(&["row"])), sample(&plain(text(&["sample"]))), plain(text(&["hosts"])));
        let expression = text(&["finds"]).unwrap().trim_matches('"').to_string();
        let (known, below) = (Mutex::new(HashMap::new()), plain(text(&["below"])).parse().unwrap());
        let finds = |outputs: &[Output]| {
            let one =
                |output: &Output| *known.lock().unwrap().entry(output.report.clone()).or_insert_with(|| has(&expression, &output.report).unwrap());
            outputs.iter().any(one)
        };
        let scenarios: Vec<String> = (0..9).map_while(|number| text(&["scenarios", &number.to_string()])).collect();
        let texts: Vec<&str> = scenarios.iter().map(|text| &**text).collect();
        for workers in [1, 3] {
            let search = Search::new(&capture).hosts(&hosts).seeds(0..below).workers(workers).loose();
            let seed = search.least_seed(&texts, finds).unwrap().map(|found| found.seed);
            assert_eq!(seed.map_or("null".into(), |seed| seed.to_string()), text(&["seed"]).unwrap(), "{name}");
            if let Some(smallest) = text(&["smallest"]).filter(|text| text != "null") {
                let found = search.shrink(texts[0], finds).unwrap();
                assert_eq!((&*found.scenarios, Some(found.seed)), (&[smallest][..], seed), "{name}");
            }
        }
    }
}

#[test]
fn wrong_uses() {
    let capture = sample("http-get");
    let search = Search::new(&capture);
    let refused = |fault: SearchError| matches!(fault, SearchError::Refused(refusal) if refusal.kind == Kind::NotJson);
    assert!(
        refused(search.least_seed(&["[]", "["], |_: &[Output]| true).unwrap_err()) && refused(search.shrink("[", |_: &[Output]| true).unwrap_err())
    );
    assert_eq!(search.shrink(CUT, |_: &[Output]| false).unwrap_err(), SearchError::Passes);
    let fault = search.shrink(CUT, |_: &[Output]| true).unwrap_err();
    assert_eq!(fault.to_string(), "the scenario [], without toxics, fails too: there is nothing to shrink");
    let idle = CUT.replace("10.77.0.2", "10.77.0.9");
    assert_eq!(search.least_seed(&["[]", &idle], |_: &[Output]| true).unwrap_err(), SearchError::Unmet(1, 0));
    assert_eq!(search.shrink(&idle, |_: &[Output]| true).unwrap_err(), SearchError::Unmet(0, 0));
    assert_eq!(Search::new(&capture).seeds(7..7).least_seed(&[CUT], |_: &[Output]| true), Ok(None));
}

#[test]
fn errors_and_panics() {
    let capture = sample("http-get");
    let asked = || Search::new(&capture).seeds(0..1000);
    let seed = asked().least_seed(&[CUT], is_cut).unwrap().unwrap().seed;
    let found = asked().least_seed(&[CUT], |outputs: &[Output]| if is_cut(outputs) { Err("cut") } else { Ok(()) }).unwrap().unwrap();
    assert_eq!((found.seed, &*found.why), (seed, "cut"));
    let asserts = |outputs: &[Output]| {
        assert!(!is_cut(outputs), "it is cut");
        false
    };
    match asked().workers(3).least_seed(&[CUT], asserts) {
        Err(SearchError::Panicked(found)) => assert_eq!((found.seed, &*found.why), (seed, "it is cut")),
        other => panic!("{other:?}"),
    }
    let found = asked().panics().shrink(CUT, asserts).unwrap();
    let smallest = CUT.replace(r#", "toxicity_ppm": 20000"#, "");
    assert_eq!((found.seed, &*found.scenarios, &*found.why), (0, &[smallest][..], "it is cut"));
}

/// The callback tells how many tries there were, and ends a search with what was found by then.
#[test]
fn ends() {
    let (capture, scenario) = (sample("http-get"), CUT.replace(r#", "toxicity_ppm": 20000"#, ""));
    let mut has_finished = false;
    for most in 0..80 {
        let told = Mutex::new(Vec::new());
        let search = Search::new(&capture).seeds(0..2).progress(|tries| {
            told.lock().unwrap().push(tries);
            if tries < most {
                ControlFlow::Continue(())
            } else {
                ControlFlow::Break(())
            }
        });
        let found = search.shrink(&scenario, is_cut);
        assert!(told.lock().unwrap().iter().zip(0..).all(|(tries, place)| *tries == place));
        match found {
            Err(SearchError::Ended(found)) => assert_eq!((found.is_some(), has_finished), (most > 0, false)),
            found => has_finished = found.unwrap().seed == 0,
        }
    }
    assert!(has_finished);
}
