//! This library from Rust, with closures as handlers; guards are the script's. It is called as rival.h's programs.

use codzvregi::{Answer, Arg, Bind, Fault, Host, Script};
use std::env;
use std::process::exit;

const WORD: u64 = 41;

// The host with so many closures, of which all run, or the one whose guard holds.
fn bound(bindings: u64, is_one: bool) -> Result<Host, Fault> {
    let keys = (0..bindings).map(|at| WORD + at - bindings / 2);
    let script = keys.clone().fold(Script::new().event("raised", "w:w"), |script, key| {
        script.guard(&format!("is {key}"), "w", &format!("== a0 {key}"))
    });
    let mut host = Host::open(&script, 1)?;
    for key in keys {
        let bind = Bind::new(|call| call.word(0) + 1);
        host.bind("raised", if is_one { bind.when(format!("is {key}").as_str()) } else { bind })?;
    }
    Ok(host)
}

fn main() -> Result<(), Fault> {
    let words: Vec<String> = env::args().skip(1).collect();
    let [bindings, runs, count] = words.as_slice() else { exit(2) };
    let number = |word: &String| word.parse().unwrap_or_else(|_| exit(2));
    let mut host = bound(number(bindings), runs == "one")?;
    for _ in 0..number(count) {
        if host.raise("raised", &[Arg::Word(WORD)])?.answer != Answer::Value(WORD + 1) {
            exit(1);
        }
    }
    Ok(())
}
