//! The event dispatcher of SPIN for hosts in Rust: safe calls over the static library of `crates/spin_c`, whose calls
//! are proved, or that of the same sources as plain Rust, of which nothing is; [`proved`] tells which is linked. Of this
//! crate nothing is proved. It hands over slices and tells numbers apart.
//!
//! A [`Lane`] is [`Send`]: it may go to another thread. It is [`Sync`] too, since whatever calls the library takes it by
//! `&mut`. Lanes of one hub may be used at once.
//!
//! ```
//! let script = b"spin 1\nevent 0 0 -:w last\nhandler 1 -:w result 7\n\
//!     lane 0 install 0 0 1 0 free plain\nlane 0 raise 0\n";
//! let report = b"report 1\nsegment 0 at 0\n1 0 4 install ok\n1 0 5 raise run 0 1 result 7 = value 7\nend 1\n";
//! assert_eq!(codzvregi::judge(script, report, &[]), Ok(true));
//! assert_eq!(codzvregi::judge(b"spin 9\n", report, &[]), Err(codzvregi::Fault::BadScript { line: 1, cause: 3 }));
//! ```
#![warn(missing_docs)]

mod bind;
mod calls;
mod command;
mod fault;
mod host;
mod lane;
mod opened;
mod reply;
mod run;
mod script;

pub use bind::{Bind, Call, Given, Outcome};
pub use command::{Command, Install, Mode, Op, Place, Reason, Refusal, Row};
pub use fault::Fault;
pub use host::{Firing, Host};
pub use lane::{Arg, Hub, Jobs, Lane};
pub use reply::{Answer, Job, Reply, Step};
pub use run::{Run, Sent};
pub use script::{Event, Script, Which};

/// A seat of a hub, which is what a lane has.
pub type Seat = Lane;

/// The version of the proved calls. It grows where one of them is changed.
pub fn version() -> u32 {
    calls::version()
}

/// What is proved of the library that is linked, in a line: by which kit, or that it is the plain one, of which nothing
/// is. What linked the library tells it, and nothing is proved of that.
pub fn proved() -> &'static str {
    env!("CODZVREGI_PROVED")
}

/// The sentence of why a script is refused, by the number of the cause, if there is one such.
pub fn cause_text(cause: u32) -> Option<String> {
    calls::cause_text(cause)
}

/// The sentence of why a capture is refused, by the number of the fault, if there is one such.
pub fn fault_text(fault: u32) -> Option<String> {
    calls::fault_text(fault)
}

/// Whether the report is that of one legal history of the script, which is run without a capture, `standing` being the
/// names of the endpoints that stood. A name that is empty or has a blank is that of no endpoint.
pub fn judge(script: &[u8], report: &[u8], standing: &[&str]) -> Result<bool, Fault> {
    calls::check(script, report, names_of(standing).as_bytes())
}

/// Whether the report is that of one legal history of the script with a capture, which these packets are the bytes of;
/// and else as [`judge`].
pub fn judge_packets(script: &[u8], packets: &[u8], report: &[u8], standing: &[&str]) -> Result<bool, Fault> {
    calls::check_packets(script, packets, report, names_of(standing).as_bytes())
}

/// Runs the script whole, with a capture that these packets are the bytes of, or without one, `standing` being the names
/// of the endpoints that stand: each segment lane after lane, and the jobs of each deed at once, on no thread. A name that
/// is empty or has a blank is that of no endpoint.
///
/// ```
/// let script = b"spin 1\nevent 0 0 b last\nendpoint 0 out0\nhandler 1 b send 0 0 1\n\
///     lane 0 install 0 0 1 0 free plain\nlane 0 raise 0 x0102\n";
/// let run = codzvregi::run(script, None, &["out0"])?;
/// assert!(run.report.starts_with(b"report 1\nsegment 0 at 0\n1 0 5 install ok\n"));
/// assert_eq!(run.sends, [codzvregi::Sent { endpoint: 0, bytes: vec![2] }]);
/// # Ok::<(), codzvregi::Fault>(())
/// ```
pub fn run(script: &[u8], packets: Option<&[u8]>, standing: &[&str]) -> Result<Run, Fault> {
    calls::run(script, packets, names_of(standing).as_bytes()).map(Run::of)
}

/// The names that may be those of endpoints, with blanks between them.
fn names_of(standing: &[&str]) -> String {
    let names: Vec<&str> = standing.iter().copied().filter(|name| !name.contains([' ', '\t'])).collect();
    names.join(" ")
}
