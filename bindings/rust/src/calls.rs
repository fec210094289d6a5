//! The proved calls, and what stands for them in Rust. With `opened` it has all unsafe code of this crate.

use crate::command::Refusal;
use crate::fault::Fault;
use std::ffi::c_void;
use std::ptr::null_mut;

/// Where a text is no script, or a capture is refused, and why.
#[repr(C)]
#[derive(Default)]
struct SpinFault {
    line: u32,
    cause: u32,
}

// As bindings/c/spin.h declares them.
unsafe extern "C" {
    safe fn spin_version() -> u32;
    fn spin_check(
        text: *const u8,
        text_length: usize,
        report: *const u8,
        report_length: usize,
        standing: *const u8,
        standing_length: usize,
        fault: *mut SpinFault,
    ) -> u32;
    fn spin_check_packets(
        text: *const u8,
        text_length: usize,
        packets: *const u8,
        packets_length: usize,
        report: *const u8,
        report_length: usize,
        standing: *const u8,
        standing_length: usize,
        fault: *mut SpinFault,
    ) -> u32;
    fn spin_run_text(
        text: *const u8,
        text_length: usize,
        packets: *const u8,
        packets_length: usize,
        standing: *const u8,
        standing_length: usize,
        has_packets: u32,
        report: *mut u8,
        report_room: usize,
        sends: *mut SpinSending,
        sends_room: usize,
        bytes: *mut u8,
        bytes_room: usize,
        ran: *mut SpinRan,
    ) -> u32;
    fn spin_open_lanes(
        text: *const u8,
        text_length: usize,
        lanes: u8,
        lane: *mut SpinLane,
        answer: *mut SpinAnswer,
    ) -> u32;
    fn spin_seat(lane: *mut SpinLane, number: u8, seat: *mut SpinLane) -> u32;
    fn spin_raise_words(
        lane: *mut SpinLane,
        event: u8,
        words: *const u64,
        count: usize,
        answer: *mut SpinAnswer,
    ) -> u32;
    fn spin_raise(
        lane: *mut SpinLane,
        event: u8,
        bytes: *const u8,
        length: usize,
        args: *const SpinArg,
        count: usize,
        answer: *mut SpinAnswer,
    ) -> u32;
    fn spin_later(
        lane: *mut SpinLane,
        event: u8,
        bytes: *const u8,
        length: usize,
        args: *const SpinArg,
        count: usize,
        answer: *mut SpinAnswer,
    ) -> u32;
    fn spin_step(lane: *mut SpinLane, index: u64, step: *mut SpinStep) -> u32;
    fn spin_steps(lane: *mut SpinLane, from: u64, steps: *mut SpinStep, room: usize, count: *mut u64) -> u32;
    fn spin_step_bytes(lane: *mut SpinLane, index: u64, buffer: *mut u8, room: usize, length: *mut u64) -> u32;
    fn spin_job(lane: *mut SpinLane, index: u64, answer: *mut SpinAnswer) -> u32;
    fn spin_job_step(lane: *mut SpinLane, index: u64, step: *mut SpinStep) -> u32;
    fn spin_job_bytes(lane: *mut SpinLane, index: u64, buffer: *mut u8, room: usize, length: *mut u64) -> u32;
    fn spin_command(lane: *mut SpinLane, row: *const [u64; 4], answer: *mut SpinAnswer) -> u32;
    fn spin_cycle(lane: *mut SpinLane, index: u64, answer: *mut SpinAnswer) -> u32;
    fn spin_gather(lane: *mut SpinLane, answer: *mut SpinAnswer) -> u32;
    fn spin_renew(lane: *mut SpinLane, answer: *mut SpinAnswer) -> u32;
    fn spin_before(lane: *mut SpinLane, index: u64, answer: *mut SpinAnswer) -> u32;
    fn spin_end(lane: *mut SpinLane, answer: *mut SpinAnswer) -> u32;
    fn spin_row_at(lane: *mut SpinLane, index: u64, row: *mut [u64; 4]) -> u32;
    fn spin_close(lane: *mut SpinLane, answer: *mut SpinAnswer) -> u32;
    fn spin_cause_text(cause: u32, buffer: *mut u8, room: usize, length: *mut u64) -> u32;
    fn spin_fault_text(fault: u32, buffer: *mut u8, room: usize, length: *mut u64) -> u32;
}

pub(crate) fn version() -> u32 {
    spin_version()
}

pub(crate) fn check(text: &[u8], report: &[u8], standing: &[u8]) -> Result<bool, Fault> {
    let mut fault = SpinFault::default();
    // SAFETY: each pointer is that of a slice, with its length, and the last that of a value of this function; none of
    // them is null, and nothing else writes to any of them meanwhile.
    let number = unsafe {
        spin_check(
            text.as_ptr(),
            text.len(),
            report.as_ptr(),
            report.len(),
            standing.as_ptr(),
            standing.len(),
            &mut fault,
        )
    };
    verdict_of(number, &fault)
}

pub(crate) fn check_packets(text: &[u8], packets: &[u8], report: &[u8], standing: &[u8]) -> Result<bool, Fault> {
    let mut fault = SpinFault::default();
    // SAFETY: as above.
    let number = unsafe {
        spin_check_packets(
            text.as_ptr(),
            text.len(),
            packets.as_ptr(),
            packets.len(),
            report.as_ptr(),
            report.len(),
            standing.as_ptr(),
            standing.len(),
            &mut fault,
        )
    };
    verdict_of(number, &fault)
}

/// A send of a run: a range of all bytes that are sent.
#[repr(C)]
#[derive(Clone, Copy, Default)]
pub(crate) struct SpinSending {
    pub(crate) endpoint: u64,
    pub(crate) at: u64,
    pub(crate) length: u64,
}

/// How much a run hands out, and why it doesn't run.
#[repr(C)]
#[derive(Clone, Copy, Default)]
struct SpinRan {
    report: u64,
    sends: u64,
    bytes: u64,
    line: u32,
    cause: u32,
}

/// What a run hands out.
pub(crate) struct Output {
    pub(crate) report: Vec<u8>,
    pub(crate) sends: Vec<SpinSending>,
    pub(crate) bytes: Vec<u8>,
}

impl Output {
    /// Empty buffers for so much.
    fn with_room(report: u64, sends: u64, bytes: u64) -> Output {
        let sends = vec![SpinSending::default(); sends as usize];
        Output { report: vec![0; report as usize], sends, bytes: vec![0; bytes as usize] }
    }

    /// Fills these, or answers why they aren't filled.
    fn fill(&mut self, text: &[u8], packets: Option<&[u8]>, standing: &[u8], ran: &mut SpinRan) -> u32 {
        let given = packets.unwrap_or_default();
        // SAFETY: each pointer is that of a slice, with its length, and the last that of a value of the caller's; none of
        // them is null, nothing else writes to any of them meanwhile, and those that are written to are this value's own.
        unsafe {
            spin_run_text(
                text.as_ptr(),
                text.len(),
                given.as_ptr(),
                given.len(),
                standing.as_ptr(),
                standing.len(),
                u32::from(packets.is_some()),
                self.report.as_mut_ptr(),
                self.report.len(),
                self.sends.as_mut_ptr(),
                self.sends.len(),
                self.bytes.as_mut_ptr(),
                self.bytes.len(),
                ran,
            )
        }
    }

    /// Keeps so much of each.
    fn keep(&mut self, ran: &SpinRan) {
        self.report.truncate(ran.report as usize);
        self.sends.truncate(ran.sends as usize);
        self.bytes.truncate(ran.bytes as usize);
    }
}

/// The room of a run's first buffers: most runs need no more.
const ROOM: (u64, u64, u64) = (1 << 16, 1 << 10, 1 << 16);

pub(crate) fn run(text: &[u8], packets: Option<&[u8]>, standing: &[u8]) -> Result<Output, Fault> {
    let (mut output, mut ran) = (Output::with_room(ROOM.0, ROOM.1, ROOM.2), SpinRan::default());
    loop {
        match output.fill(text, packets, standing, &mut ran) {
            0 => break,
            11 => output = Output::with_room(ran.report, ran.sends, ran.bytes),
            number => return Err(unread(number, ran.line, ran.cause)),
        }
    }
    output.keep(&ran);
    Ok(output)
}

/// A call that tells the sentence of a number.
type Tell = unsafe extern "C" fn(u32, *mut u8, usize, *mut u64) -> u32;

/// The sentence that a call has for a number, if it has one.
fn text_of(tell: Tell, number: u32) -> Option<String> {
    let (mut bytes, mut length) = (Vec::new(), 0);
    // SAFETY: a slice with its length, and a number of this function.
    unsafe { tell(number, bytes.as_mut_ptr(), bytes.len(), &mut length) };
    bytes.resize(length as usize, 0);
    // SAFETY: as above.
    let told = unsafe { tell(number, bytes.as_mut_ptr(), bytes.len(), &mut length) };
    (told == 0).then(|| String::from_utf8_lossy(&bytes).into_owned())
}

pub(crate) fn cause_text(cause: u32) -> Option<String> {
    text_of(spin_cause_text, cause)
}

pub(crate) fn fault_text(fault: u32) -> Option<String> {
    text_of(spin_fault_text, fault)
}

fn verdict_of(number: u32, fault: &SpinFault) -> Result<bool, Fault> {
    match number {
        0 => Ok(true),
        3 => Ok(false),
        other => Err(unread(other, fault.line, fault.cause)),
    }
}

/// Why a script or its capture isn't read.
fn unread(number: u32, line: u32, cause: u32) -> Fault {
    match number {
        1 => Fault::NoMemory,
        2 => Fault::BadScript { line, cause },
        16 => Fault::BadCapture { record: line, fault: cause },
        other => Fault::Unknown(other),
    }
}

/// What a call of a handle tells besides its number.
#[repr(C)]
#[derive(Clone, Copy, Default)]
pub(crate) struct SpinAnswer {
    pub(crate) place: u32,
    pub(crate) kind: u32,
    pub(crate) value: u64,
    pub(crate) steps: u64,
}

/// An argument: a word, or a range of the bytes that are handed in beside it.
#[repr(C)]
#[derive(Clone, Copy)]
pub(crate) struct SpinArg {
    pub(crate) kind: u64,
    pub(crate) at: u64,
    pub(crate) length: u64,
}

impl SpinArg {
    pub(crate) fn word(word: u64) -> SpinArg {
        SpinArg { kind: 0, at: word, length: 0 }
    }

    pub(crate) fn range(start: usize, length: usize) -> SpinArg {
        SpinArg { kind: 1, at: start as u64, length: length as u64 }
    }
}

/// A step of a reply.
#[repr(C)]
#[derive(Clone, Copy, Default)]
pub(crate) struct SpinStep {
    pub(crate) kind: u32,
    pub(crate) event: u32,
    pub(crate) number: u32,
    pub(crate) answer: u32,
    pub(crate) value: u64,
    pub(crate) length: u64,
}

/// A handle; closed where it is null.
#[repr(C)]
pub(crate) struct SpinLane {
    at: *mut c_void,
}

/// A handle.
pub(crate) struct Held {
    pub(crate) lane: SpinLane,
}

// SAFETY: what a handle holds may be used from any thread, one call at a time, which `&mut` sees to: that is proved of
// the library's own type. Handles of one hub share it, and may be used at once.
unsafe impl Send for Held {}

// SAFETY: no call of the library is made by a shared reference to a handle, so threads that share one make none of it.
unsafe impl Sync for Held {}

/// What a number tells.
pub(crate) fn tell(number: u32, answer: SpinAnswer) -> Result<SpinAnswer, Fault> {
    Err(match number {
        0 => return Ok(answer),
        1 => Fault::NoMemory,
        2 => Fault::BadScript { line: answer.place, cause: answer.kind },
        6 => Fault::NoCommand,
        7 => Fault::Full,
        8 => Fault::Refused(Refusal::of(answer.kind, answer.place, answer.value)),
        9 => Fault::NoReply,
        10 => Fault::NoStep,
        13 => Fault::NoLane,
        14 => Fault::Taken,
        15 => Fault::NoBinding,
        17 => Fault::Shared,
        18 => Fault::NoJob,
        19 => Fault::Ended,
        22 => Fault::NotRaised { place: answer.place, kind: answer.kind },
        23 => Fault::NotDue,
        24 => Fault::Downward,
        25 => Fault::Gift(answer.kind),
        other => Fault::Unknown(other),
    })
}

/// Whose steps are told.
#[derive(Clone, Copy)]
pub(crate) enum Of {
    /// Those of the last raise.
    Raise,
    /// Those of the last job of it.
    Job,
}

impl Held {
    /// One that is closed.
    fn closed() -> Held {
        Held { lane: SpinLane { at: null_mut() } }
    }

    /// Makes a call with this handle and an answer, and answers what it tells.
    fn ask(&mut self, call: impl FnOnce(&mut SpinLane, &mut SpinAnswer) -> u32) -> Result<SpinAnswer, Fault> {
        let mut answer = SpinAnswer::default();
        tell(call(&mut self.lane, &mut answer), answer)
    }

    /// The opener of a hub.
    pub(crate) fn open(text: &[u8], lanes: u8) -> Result<Held, Fault> {
        let mut held = Held::closed();
        // SAFETY: a slice with its length; the handle is closed, and nobody else has it or the answer.
        held.ask(|lane, answer| unsafe { spin_open_lanes(text.as_ptr(), text.len(), lanes, lane, answer) })?;
        Ok(held)
    }

    pub(crate) fn seat(&mut self, number: u8) -> Result<Held, Fault> {
        let mut other = Held::closed();
        // SAFETY: the handle is this value's own, and the other is closed; nobody else has either.
        tell(unsafe { spin_seat(&mut self.lane, number, &mut other.lane) }, SpinAnswer::default())?;
        Ok(other)
    }

    pub(crate) fn raise(&mut self, event: u8, words: &[u64]) -> Result<SpinAnswer, Fault> {
        // SAFETY: the handle is this value's own; a slice with its length, and an answer that nobody else has.
        self.ask(|lane, answer| unsafe { spin_raise_words(lane, event, words.as_ptr(), words.len(), answer) })
    }

    pub(crate) fn raise_args(&mut self, event: u8, bytes: &[u8], args: &[SpinArg]) -> Result<SpinAnswer, Fault> {
        let (data, length, count) = (bytes.as_ptr(), bytes.len(), args.len());
        // SAFETY: as above, with two slices and their lengths.
        self.ask(|lane, answer| unsafe { spin_raise(lane, event, data, length, args.as_ptr(), count, answer) })
    }

    pub(crate) fn later(&mut self, event: u8, bytes: &[u8], args: &[SpinArg]) -> Result<SpinAnswer, Fault> {
        let (data, length, count) = (bytes.as_ptr(), bytes.len(), args.len());
        // SAFETY: as above.
        self.ask(|lane, answer| unsafe { spin_later(lane, event, data, length, args.as_ptr(), count, answer) })
    }

    /// A step, and the bytes that it sends.
    pub(crate) fn step(&mut self, of: Of, index: u64) -> Result<(SpinStep, Vec<u8>), Fault> {
        let (mut step, lane) = (SpinStep::default(), &mut self.lane);
        // SAFETY: the handle is this value's own, and the step is one of this function.
        let number = unsafe {
            match of {
                Of::Raise => spin_step(lane, index, &mut step),
                Of::Job => spin_job_step(lane, index, &mut step),
            }
        };
        tell(number, SpinAnswer::default())?;
        let bytes = self.bytes(of, index, step.length)?;
        Ok((step, bytes))
    }

    /// The steps of the last raise from an index on, as many as have room at the front of the list, and how many.
    pub(crate) fn steps(&mut self, from: u64, steps: &mut [SpinStep]) -> Result<usize, Fault> {
        let (mut count, lane, room) = (0, &mut self.lane, steps.len());
        // SAFETY: the handle is this value's own; a slice with its length, and a number of this function.
        let number = unsafe { spin_steps(lane, from, steps.as_mut_ptr(), room, &mut count) };
        tell(number, SpinAnswer::default())?;
        Ok(count as usize)
    }

    /// The bytes that a step sends, which are so many.
    pub(crate) fn bytes(&mut self, of: Of, index: u64, length: u64) -> Result<Vec<u8>, Fault> {
        if length == 0 {
            return Ok(Vec::new());
        }
        let (lane, mut told) = (&mut self.lane, 0);
        let mut bytes = vec![0; length as usize];
        let (buffer, room) = (bytes.as_mut_ptr(), bytes.len());
        // SAFETY: the handle is this value's own; a slice with its length, and a number of this function.
        let number = unsafe {
            match of {
                Of::Raise => spin_step_bytes(lane, index, buffer, room, &mut told),
                Of::Job => spin_job_bytes(lane, index, buffer, room, &mut told),
            }
        };
        tell(number, SpinAnswer::default())?;
        Ok(bytes)
    }

    pub(crate) fn job(&mut self, index: u64) -> Result<SpinAnswer, Fault> {
        // SAFETY: the handle is this value's own, and nobody else has the answer.
        self.ask(|lane, answer| unsafe { spin_job(lane, index, answer) })
    }

    pub(crate) fn command(&mut self, row: [u64; 4]) -> Result<SpinAnswer, Fault> {
        // SAFETY: the handle is this value's own; the row is one of this function, and nobody else has the answer.
        let mut told = self.ask(|lane, answer| unsafe { spin_command(lane, &row, answer) });
        if let Err(Fault::Refused(refusal)) = &mut told {
            refusal.cycle = self.cycle();
        }
        told
    }

    /// The bindings of the cycle for which the last command was refused.
    fn cycle(&mut self) -> Vec<u64> {
        // SAFETY: the handle is this value's own, and nobody else has the answer.
        let mut binding = |index| self.ask(|lane, answer| unsafe { spin_cycle(lane, index, answer) });
        (0..).map_while(|index| binding(index).ok()).map(|told| told.value).collect()
    }

    pub(crate) fn gather(&mut self) -> Result<SpinAnswer, Fault> {
        // SAFETY: the handle is this value's own, and nobody else has the answer.
        self.ask(|lane, answer| unsafe { spin_gather(lane, answer) })
    }

    pub(crate) fn end(&mut self) -> Result<SpinAnswer, Fault> {
        // SAFETY: as above.
        self.ask(|lane, answer| unsafe { spin_end(lane, answer) })
    }

    pub(crate) fn row_at(&mut self, index: u64) -> Result<[u64; 4], Fault> {
        let mut row = [0; 4];
        // SAFETY: the handle is this value's own, and the row is one of this function.
        tell(unsafe { spin_row_at(&mut self.lane, index, &mut row) }, SpinAnswer::default())?;
        Ok(row)
    }

    pub(crate) fn renew(&mut self) -> Result<SpinAnswer, Fault> {
        // SAFETY: the handle is this value's own, and nobody else has the answer.
        self.ask(|lane, answer| unsafe { spin_renew(lane, answer) })
    }

    pub(crate) fn before(&mut self, index: u64) -> Result<SpinAnswer, Fault> {
        // SAFETY: as above.
        self.ask(|lane, answer| unsafe { spin_before(lane, index, answer) })
    }
}

impl Drop for Held {
    fn drop(&mut self) {
        // SAFETY: the handle is this value's own, and isn't used again. The call asks for no memory, and one that is
        // closed stays closed.
        let _ = self.ask(|lane, answer| unsafe { spin_close(lane, answer) });
    }
}
