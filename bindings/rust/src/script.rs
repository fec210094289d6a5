//! Scripts that declare events, handlers and guards by names.

use crate::fault::Fault;
use std::fmt::Write;

/// What an event takes and gives, and what its owner says of it.
///
/// ```
/// use codzvregi::Event;
///
/// let packet = Event::new("Bw:w").merge("fold + a0 a1").owner("net").rule("0 255 install any all allow");
/// # let _ = packet;
/// ```
#[derive(Clone, Debug)]
pub struct Event {
    signature: String,
    merge: String,
    owner: Option<String>,
    rules: Vec<String>,
}

impl Event {
    /// An event with this signature, as scripts have it: w and b, W and B where it may be changed, :w where a result is
    /// given. The last result stands, and the first module owns it.
    pub fn new(signature: &str) -> Event {
        Event { signature: signature.into(), merge: "last".into(), owner: None, rules: Vec::new() }
    }

    /// With this merge of results.
    pub fn merge(self, merge: &str) -> Event {
        Event { merge: merge.into(), ..self }
    }

    /// Owned by this module.
    pub fn owner(self, module: &str) -> Event {
        Event { owner: Some(module.into()), ..self }
    }

    /// With one more rule of its owner's, as scripts have it behind `rule` and the event.
    pub fn rule(mut self, rule: &str) -> Event {
        self.rules.push(rule.into());
        self
    }
}

impl From<&str> for Event {
    fn from(signature: &str) -> Event {
        Event::new(signature)
    }
}

/// What has a name or a number.
#[derive(Clone, Copy, Debug)]
pub enum Which<'a> {
    /// A name.
    Named(&'a str),
    /// A number.
    Numbered(u16),
}

impl<'a> From<&'a str> for Which<'a> {
    fn from(name: &'a str) -> Which<'a> {
        Which::Named(name)
    }
}

impl From<u16> for Which<'_> {
    fn from(number: u16) -> Self {
        Which::Numbered(number)
    }
}

/// A handler or a guard of the script's.
#[derive(Clone, Debug)]
struct Unit {
    name: String,
    signature: String,
    does: String,
}

/// A script by names: each is one of its numbers, an event's or a module's its index, a handler's or a guard's its
/// index and 1. Behind the handlers stands one without steps for each event, which is bound where a closure takes its
/// place.
///
/// ```
/// let script = codzvregi::Script::new().event("Udp.PacketArrived", "bw").guard("is_dns", "bw", "== a1 53");
/// assert_eq!(script.text(), "spin 3\nevent 0 0 bw last\nhandler 1 bw\nguard 1 bw == a1 53\n");
/// ```
#[derive(Clone, Debug, Default)]
pub struct Script {
    modules: Vec<String>,
    events: Vec<(String, Event)>,
    endpoints: Vec<String>,
    handlers: Vec<Unit>,
    guards: Vec<Unit>,
}

impl Script {
    /// One that declares nothing.
    pub fn new() -> Script {
        Script::default()
    }

    /// With one more module.
    pub fn module(mut self, name: &str) -> Script {
        self.modules.push(name.into());
        self
    }

    /// With one more event.
    pub fn event(mut self, name: &str, event: impl Into<Event>) -> Script {
        self.events.push((name.into(), event.into()));
        self
    }

    /// With one more endpoint.
    pub fn endpoint(mut self, name: &str) -> Script {
        self.endpoints.push(name.into());
        self
    }

    /// With one more handler of the script's, which takes these steps.
    pub fn handler(mut self, name: &str, signature: &str, steps: &str) -> Script {
        self.handlers.push(Unit { name: name.into(), signature: signature.into(), does: steps.into() });
        self
    }

    /// With one more guard of the script's, which asks this test.
    pub fn guard(mut self, name: &str, signature: &str, test: &str) -> Script {
        self.guards.push(Unit { name: name.into(), signature: signature.into(), does: test.into() });
        self
    }

    /// The text of it. An owner that is no module is left as its name, which no script may have.
    pub fn text(&self) -> String {
        let mut lines = vec!["spin 3".to_owned()];
        if !self.modules.is_empty() {
            lines.push(format!("modules {}", self.modules.len()));
        }
        for (at, (_, event)) in self.events.iter().enumerate() {
            let named = event.owner.as_deref().unwrap_or("0");
            let owner = index_of(&self.modules, named).map_or(named.to_owned(), |owner| owner.to_string());
            lines.push(format!("event {at} {owner} {} {}", event.signature, event.merge));
        }
        lines.extend(self.endpoints.iter().enumerate().map(|(at, name)| format!("endpoint {at} {name}")));
        let coded = self.handlers.iter().map(|unit| format!("{} {}", unit.signature, unit.does));
        let own = self.events.iter().map(|(_, event)| event.signature.clone());
        lines.extend(coded.chain(own).zip(1..).map(|(unit, number)| format!("handler {number} {unit}")));
        let tests = self.guards.iter().map(|unit| format!("{} {}", unit.signature, unit.does));
        lines.extend(tests.zip(1..).map(|(unit, number)| format!("guard {number} {unit}")));
        for (at, (_, event)) in self.events.iter().enumerate() {
            lines.extend(event.rules.iter().map(|rule| format!("rule {at} {rule}")));
        }
        lines.iter().fold(String::new(), |mut text, line| {
            let _ = writeln!(text, "{}", line.trim_end());
            text
        })
    }

    /// The handler without steps of an event; 0 where nothing is declared by names.
    pub(crate) fn own_handler(&self, event: u16) -> u16 {
        if self.events.is_empty() { 0 } else { self.handlers.len() as u16 + 1 + event }
    }

    /// The number of an event.
    pub(crate) fn event_number(&self, which: Which<'_>) -> Result<u16, Fault> {
        number_of(which, "event", |name| self.events.iter().position(|(other, _)| other == name))
    }

    /// The number of a handler.
    pub(crate) fn handler_number(&self, which: Which<'_>) -> Result<u16, Fault> {
        number_of(which, "handler", |name| unit_of(&self.handlers, name))
    }

    /// The number of a guard.
    pub(crate) fn guard_number(&self, which: Which<'_>) -> Result<u16, Fault> {
        number_of(which, "guard", |name| unit_of(&self.guards, name))
    }

    /// The number of a module.
    pub(crate) fn module_number(&self, which: Which<'_>) -> Result<u16, Fault> {
        number_of(which, "module", |name| index_of(&self.modules, name))
    }

    /// The number of an endpoint.
    pub(crate) fn endpoint_number(&self, which: Which<'_>) -> Result<u16, Fault> {
        number_of(which, "endpoint", |name| index_of(&self.endpoints, name))
    }
}

/// The index of a name.
fn index_of(names: &[String], name: &str) -> Option<usize> {
    names.iter().position(|other| other == name)
}

/// The number of a handler or a guard.
fn unit_of(units: &[Unit], name: &str) -> Option<usize> {
    units.iter().position(|unit| unit.name == name).map(|at| at + 1)
}

/// A number, or that of a name.
fn number_of(which: Which<'_>, what: &str, find: impl Fn(&str) -> Option<usize>) -> Result<u16, Fault> {
    match which {
        Which::Numbered(number) => Ok(number),
        Which::Named(name) => {
            find(name).map(|number| number as u16).ok_or_else(|| Fault::NoName(format!("{what} {name}")))
        }
    }
}
