//! Judges a report: `judge SCRIPT REPORT [STANDING]..`, the last words being the names of the endpoints that stood.

use std::error::Error;
use std::process::ExitCode;
use std::{env, fs};

fn main() -> Result<ExitCode, Box<dyn Error>> {
    let words: Vec<String> = env::args().skip(1).collect();
    let [script, report, standing @ ..] = &words[..] else {
        return Err("usage: judge SCRIPT REPORT [STANDING]..".into());
    };
    let standing: Vec<&str> = standing.iter().map(String::as_str).collect();
    let is_history = codzvregi::judge(&fs::read(script)?, &fs::read(report)?, &standing)?;
    println!("{}", if is_history { "yes" } else { "no" });
    Ok(ExitCode::from(u8::from(!is_history)))
}
