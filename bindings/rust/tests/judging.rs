//! What the safe calls make of the proved ones.

use codzvregi::{Fault, cause_text, fault_text, judge, judge_packets, version};

const SCRIPT: &[u8] =
    b"spin 1\nevent 0 0 -:w last\nhandler 1 -:w result 7\nlane 0 install 0 0 1 0 free plain\nlane 0 raise 0\n";
const REPORT: &[u8] = b"report 1\nsegment 0 at 0\n1 0 4 install ok\n1 0 5 raise run 0 1 result 7 = value 7\nend 1\n";

#[test]
fn the_version_is_the_second() {
    assert_eq!(version(), 2);
}

#[test]
fn a_report_is_that_of_its_script() {
    assert_eq!(judge(SCRIPT, REPORT, &[]), Ok(true));
}

#[test]
fn each_byte_of_a_report_counts() {
    for at in 0..REPORT.len() {
        let mut other = REPORT.to_vec();
        other[at] ^= 1;
        assert_eq!(judge(SCRIPT, &other, &[]), Ok(false), "byte {at}");
    }
}

#[test]
fn a_text_that_is_no_script_is_told_with_its_line_and_cause() {
    let fault = judge(b"spin 1\nevent\n", REPORT, &[]).unwrap_err();
    assert_eq!(fault, Fault::BadScript { line: 2, cause: 11 });
    assert!(fault.to_string().starts_with("line 2 is bad: cause 11, end: the line ends too early"), "{fault}");
}

#[test]
fn empty_texts_are_no_script_and_no_report() {
    assert_eq!(judge(b"", b"", &[]), Err(Fault::BadScript { line: 1, cause: 3 }));
    assert_eq!(judge(SCRIPT, b"", &[]), Ok(false));
}

#[test]
fn names_with_blanks_are_those_of_no_endpoint() {
    assert_eq!(judge(SCRIPT, REPORT, &["", "out0 out1", "out2"]), Ok(true));
}

const FILTER: &[u8] = include_bytes!("../../../examples/packets.spin");
const PACKETS: &[u8] = include_bytes!("../../../examples/packets.pcap");
const FILTERED: &[u8] = include_bytes!("../../../examples/packets.report");

#[test]
fn a_report_is_that_of_its_script_and_capture() {
    assert_eq!(judge_packets(FILTER, PACKETS, FILTERED, &["out0"]), Ok(true));
    assert_eq!(judge_packets(FILTER, &PACKETS[..PACKETS.len() - 1], FILTERED, &["out0"]), Ok(false));
    assert_eq!(judge(FILTER, FILTERED, &["out0"]), Ok(false));
}

#[test]
fn a_capture_that_is_refused_is_told_with_its_record_and_fault() {
    let fault = judge_packets(FILTER, b"", FILTERED, &["out0"]).unwrap_err();
    assert_eq!(fault, Fault::BadCapture { record: 0, fault: 5 });
    assert_eq!(fault.to_string(), "record 0 is bad: fault 5, short: where fewer than 24 bytes are there");
    assert_eq!(judge_packets(b"", b"", b"", &[]), Err(Fault::BadScript { line: 1, cause: 3 }));
}

#[test]
fn each_cause_and_fault_has_a_sentence() {
    assert!((1..25).all(|cause| cause_text(cause).is_some_and(|text| text.contains(": "))));
    assert!((1..9).all(|fault| fault_text(fault).is_some_and(|text| text.contains(": "))));
    assert_eq!([cause_text(0), cause_text(25), fault_text(0), fault_text(9)], [None, None, None, None]);
}
