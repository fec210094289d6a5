//! Hubs over scripts, and their seats, on which is bound and raised.

use crate::calls::{Held, Of, SpinArg, SpinStep};
use crate::command::{Command, Row};
use crate::fault::Fault;
use crate::reply::{Job, Reply, Step};

/// How many steps are asked for at once.
const MANY: usize = 64;

/// An argument of a raise.
#[derive(Clone, Copy, Debug, PartialEq, Eq)]
pub enum Arg<'a> {
    /// A word of 64 bits.
    Word(u64),
    /// Bytes.
    Bytes(&'a [u8]),
}

/// Arguments as they are handed in: all bytes, and what each argument is.
pub(crate) fn given(args: &[Arg<'_>]) -> (Vec<u8>, Vec<SpinArg>) {
    let (mut bytes, mut laid) = (Vec::new(), Vec::with_capacity(args.len()));
    lay(args, &mut bytes, &mut laid);
    (bytes, laid)
}

/// The same in lists whose room is used again.
pub(crate) fn lay(args: &[Arg<'_>], bytes: &mut Vec<u8>, laid: &mut Vec<SpinArg>) {
    bytes.clear();
    laid.clear();
    laid.extend(args.iter().map(|arg| match *arg {
        Arg::Word(word) => SpinArg::word(word),
        Arg::Bytes(more) => {
            bytes.extend_from_slice(more);
            SpinArg::range(bytes.len() - more.len(), more.len())
        }
    }));
}

/// A seat of a hub over a script: what the script declares, and the bindings that commands of all its seats made. It
/// may go to another thread. Each answer has a place, and is what the commands that were accepted up to there make of
/// it. The seat of lane 0 is the hub's opener: it hands the others out, and renews and ends the hub. Any other seat
/// that is dropped comes home, to be handed out again. Seats outlive their opener.
pub struct Lane {
    pub(crate) held: Held,
    number: u8,
}

/// A new hub over a script, of which the seats are taken one by one, or all at once.
///
/// ```
/// use codzvregi::{Answer, Hub, Install, Op};
///
/// let mut first = Hub::open(b"spin 1\nevent 0 0 -:w last\nhandler 1 -:w result 7\n", 2)?.into_first();
/// let mut other = first.seat(1)?;
/// std::thread::spawn(move || other.command(&Op::Install(Install::new(1)).on(0))).join().unwrap()?;
/// assert_eq!(first.raise(0, &[])?.answer, Answer::Value(7));
/// first.renew()?;
/// # Ok::<(), codzvregi::Fault>(())
/// ```
pub struct Hub {
    first: Lane,
}

impl Hub {
    /// A hub of 1 to 8 lanes over the script: what it declares, with nothing bound. Its lane lines aren't done.
    pub fn open(script: &[u8], lanes: u8) -> Result<Hub, Fault> {
        Ok(Hub { first: Lane { held: Held::open(script, lanes)?, number: 0 } })
    }

    /// The seat of another lane, as [`Lane::seat`] hands it out.
    pub fn seat(&mut self, lane: u8) -> Result<Lane, Fault> {
        self.first.seat(lane)
    }

    /// The hub's opener, the seat of lane 0.
    pub fn into_first(self) -> Lane {
        self.first
    }

    /// All seats, the k-th being that of lane k, where the hub has so many and all others are at home.
    pub fn into_seats(mut self, lanes: u8) -> Result<Vec<Lane>, Fault> {
        let others = (1..lanes).map(|lane| self.seat(lane)).collect::<Result<Vec<Lane>, Fault>>()?;
        Ok(std::iter::once(self.first).chain(others).collect())
    }
}

impl Lane {
    /// The seat of a hub with one lane over the script: what the script declares, with nothing bound. Its lane lines
    /// aren't done.
    pub fn open(script: &[u8]) -> Result<Lane, Fault> {
        Ok(Hub::open(script, 1)?.first)
    }

    /// The number of its lane.
    pub fn number(&self) -> u8 {
        self.number
    }

    /// The seat of another lane, which the hub's opener hands out where it is at home.
    pub fn seat(&mut self, lane: u8) -> Result<Lane, Fault> {
        Ok(Lane { held: self.held.seat(lane)?, number: lane })
    }

    /// Takes the seats in that came home, by the opener, and answers how many are still out.
    pub fn gather(&mut self) -> Result<u64, Fault> {
        Ok(self.held.gather()?.value)
    }

    /// Raises the event with these words as its arguments.
    pub fn raise(&mut self, event: u8, words: &[u64]) -> Result<Reply, Fault> {
        Reply::of(self.held.raise(event, words)?)
    }

    /// Raises the event with these arguments. The bytes are copied.
    pub fn raise_with(&mut self, event: u8, args: &[Arg<'_>]) -> Result<Reply, Fault> {
        let (bytes, given) = given(args);
        Reply::of(self.held.raise_args(event, &bytes, &given)?)
    }

    /// Leaves a raise of the event with these arguments to a job, which is the one job of its reply.
    pub fn later(&mut self, event: u8, args: &[Arg<'_>]) -> Result<Reply, Fault> {
        let (bytes, given) = given(args);
        Reply::of(self.held.later(event, &bytes, &given)?)
    }

    /// The step at an index, counted from 0, of the reply to the last raise, which is kept until the next raise,
    /// command or renewal.
    pub fn step(&mut self, index: u64) -> Result<Step, Fault> {
        let (told, bytes) = self.held.step(Of::Raise, index)?;
        Step::of(told, bytes)
    }

    /// All steps of that reply.
    pub fn steps(&mut self) -> Result<Vec<Step>, Fault> {
        let (mut steps, mut told) = (Vec::new(), [SpinStep::default(); MANY]);
        loop {
            let from = steps.len() as u64;
            let count = match self.held.steps(from, &mut told) {
                Err(Fault::NoStep) => 0,
                other => other?,
            };
            for (index, step) in (from..).zip(&told[..count]) {
                let bytes = self.held.bytes(Of::Raise, index, step.length)?;
                steps.push(Step::of(*step, bytes)?);
            }
            if count < MANY {
                return Ok(steps);
            }
        }
    }

    /// Does the job at an index, counted from 0, of those that the reply to the last raise leaves, in the order of its
    /// steps. It is done on the bindings of that raise, whatever was bound since, and may be done again.
    pub fn job(&mut self, index: u64) -> Result<Job, Fault> {
        let reply = Reply::of(self.held.job(index)?)?;
        let told = (0..reply.steps).map(|at| self.held.step(Of::Job, at));
        let steps = told.map(|told| told.and_then(|(step, bytes)| Step::of(step, bytes)));
        Ok(Job { reply, steps: steps.collect::<Result<_, _>>()? })
    }

    /// Does the jobs of that reply one after another, each as it is asked for.
    pub fn jobs(&mut self) -> Jobs<'_> {
        Jobs { lane: self, next: 0 }
    }

    /// Does the command, and answers its place, which is also the number of the binding that it installs. One that is
    /// refused is told as [`Fault::Refused`].
    pub fn command(&mut self, command: &Command) -> Result<u32, Fault> {
        let row = command.row().ok_or(Fault::Wide)?;
        Ok(self.held.command(row)?.place)
    }

    /// Renews its hub, by the opener, where no seat is out: it goes on over a new log, so that its bindings may change
    /// again, and nothing is lost that is bound. The live bindings are numbered anew, from 1 on in the order of their
    /// numbers.
    pub fn renew(&mut self) -> Result<(), Fault> {
        self.held.renew()?;
        Ok(())
    }

    /// Which number the binding of this number had before the last renewal.
    pub fn number_before(&mut self, number: u64) -> Result<u64, Fault> {
        Ok(self.held.before(number.wrapping_sub(1))?.value)
    }

    /// Ends its hub, by the opener, where no seat is out, and answers the rows of its log: the commands that were
    /// accepted since it was opened or renewed, which with all that was answered are one history.
    pub fn end(&mut self) -> Result<Vec<Row>, Fault> {
        let count = self.held.end()?.value;
        (0..count).map(|index| Row::of(self.held.row_at(index)?).ok_or(Fault::NoCommand)).collect()
    }
}

/// The jobs of a reply, which are done as they are asked for. It ends behind the last one, or a fault.
pub struct Jobs<'a> {
    lane: &'a mut Lane,
    next: u64,
}

impl Iterator for Jobs<'_> {
    type Item = Result<Job, Fault>;

    fn next(&mut self) -> Option<Result<Job, Fault>> {
        if self.next == u64::MAX {
            return None;
        }
        let done = self.lane.job(self.next);
        self.next = if done.is_ok() { self.next + 1 } else { u64::MAX };
        Some(done).filter(|done| *done != Err(Fault::NoJob))
    }
}
