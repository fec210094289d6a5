//! What whole runs hand out.

use codzvregi::{Fault, Sent, judge, run};
use std::path::{Path, PathBuf};
use std::{fs, str};

const ALL: [&str; 5] = ["out0", "out1", "out2", "out3", "echo"];

/// The cases of runs without words of their own: each a script with its report.
fn cases() -> Vec<(PathBuf, Vec<u8>)> {
    let folders = fs::read_dir(Path::new("../../cases")).unwrap().map(|folder| folder.unwrap().path());
    // the natives of cases are the program's own
    let files =
        folders.filter(|it| it.is_dir() && !it.ends_with("natives")).flat_map(|folder| fs::read_dir(folder).unwrap());
    let written =
        files.map(|file| file.unwrap().path()).filter(|file| file.extension().is_some_and(|it| it == "stdout"));
    written
        .filter(|file| !file.with_extension("args").exists())
        .map(|file| (file.with_extension(""), fs::read(file).unwrap()))
        .filter(|(_, report)| report.starts_with(b"report 1\n") && !report.windows(6).any(|it| it == b"\nstop "))
        .collect()
}

/// What the sends to an endpoint leave in the file that the program writes for it.
fn left_of(sends: &[Sent], endpoint: u8) -> Vec<u8> {
    let own = sends.iter().filter(|sent| sent.endpoint == endpoint);
    own.flat_map(|sent| [&(sent.bytes.len() as u32).to_be_bytes()[..], &sent.bytes].concat()).collect()
}

/// The name of the script's endpoint of that number.
fn name_of(script: &[u8], endpoint: u8) -> &str {
    let lines = script.split(|byte| *byte == b'\n').filter_map(|line| str::from_utf8(line).ok());
    let begin = format!("endpoint {endpoint} ");
    lines.filter_map(|line| line.strip_prefix(&begin)).next().unwrap().trim()
}

#[test]
fn worked_cases_have_the_reports_and_sends_of_the_program() {
    let mut compared = [0, 0];
    for (case, report) in cases() {
        let script = fs::read(&case).unwrap();
        let ran = run(&script, None, &ALL).unwrap_or_else(|fault| panic!("{}: {fault}", case.display()));
        assert!(ran.report == report, "{}", case.display());
        let mut endpoints: Vec<u8> = ran.sends.iter().map(|sent| sent.endpoint).collect();
        endpoints.sort_unstable();
        endpoints.dedup();
        for endpoint in endpoints.into_iter().filter(|number| name_of(&script, *number) != "echo") {
            let left = fs::read(case.with_extension(name_of(&script, endpoint))).unwrap();
            assert!(left_of(&ran.sends, endpoint) == left, "{}: endpoint {endpoint}", case.display());
            compared[1] += 1;
        }
        compared[0] += 1;
    }
    assert!(compared[0] > 60 && compared[1] > 5, "{compared:?}");
}

const FILTER: &[u8] = include_bytes!("../../../examples/packets.spin");
const PACKETS: &[u8] = include_bytes!("../../../examples/packets.pcap");

#[test]
fn a_run_with_a_capture_is_the_example_s() {
    let ran = run(FILTER, Some(PACKETS), &["out0"]).unwrap();
    assert_eq!(ran.report, include_bytes!("../../../examples/packets.report"));
    assert_eq!(left_of(&ran.sends, 0), include_bytes!("../../../examples/packets.out0"));
}

const SCRIPT: &str =
    "spin 1\nevent 0 0 b last\nendpoint 0 out0\nhandler 1 b send 0 0 0\nlane 0 install 0 0 1 0 free plain\n";

#[test]
fn a_run_has_room_for_whatever_it_hands_out() {
    let script: String = SCRIPT.to_owned() + &"lane 0 raise 0 x000102030405060708090a0b0c0d0e0f\n".repeat(10_000);
    let ran = run(script.as_bytes(), None, &["out0"]).unwrap();
    let sent = Sent { endpoint: 0, bytes: (0..16).collect() };
    assert!(ran.sends.len() == 10_000 && ran.sends.iter().all(|it| *it == sent));
    assert_eq!(judge(script.as_bytes(), &ran.report, &["out0"]), Ok(true));
    assert_eq!(run(script.as_bytes(), None, &[]).unwrap().sends, []);
}

#[test]
fn a_script_or_a_capture_that_is_refused_is_not_run() {
    assert_eq!(run(b"", None, &[]), Err(Fault::BadScript { line: 1, cause: 3 }));
    assert_eq!(run(b"", Some(b""), &[]), Err(Fault::BadScript { line: 1, cause: 3 }));
    assert_eq!(run(FILTER, Some(b""), &[]), Err(Fault::BadCapture { record: 0, fault: 5 }));
}
