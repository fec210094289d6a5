//! Stands in for as much of clap as the crates ask: a command whose subcommands take positional arguments, of which the
//! last may be left out, and no option.

use plain_std::alloc::{AllocError, Global};

pub mod error {
    /// Why words aren't those of the command.
    #[derive(Debug, Clone, Copy, PartialEq, Eq)]
    pub enum ErrorKind {
        OutOfMemory,
        MissingSubcommand,
        InvalidSubcommand,
        MissingRequiredArgument,
        UnknownArgument,
    }
}

use error::ErrorKind;

/// The words aren't those of the command.
#[derive(Debug)]
pub struct Error(ErrorKind);

impl Error {
    pub fn kind(&self) -> ErrorKind {
        self.0
    }
}

/// A positional argument.
pub struct Arg<'c> {
    name: &'c str,
    is_required: bool,
}

impl<'c> Arg<'c> {
    pub fn new(_alloc: Global, name: &'c str) -> Self {
        Arg {
            name,
            is_required: false,
        }
    }

    pub fn required(self, is_required: bool) -> Self {
        Arg {
            is_required,
            ..self
        }
    }
}

/// A command.
pub struct Command<'c> {
    name: &'c str,
    arguments: Vec<Arg<'c>>,
    subcommands: Vec<Command<'c>>,
}

impl<'c> Command<'c> {
    pub fn new(_alloc: Global, name: &'c str) -> Self {
        Command {
            name,
            arguments: Vec::new(),
            subcommands: Vec::new(),
        }
    }

    pub fn no_binary_name(self, _is_left_out: bool) -> Self {
        self
    }

    pub fn disable_help_flag(self, _is_disabled: bool) -> Self {
        self
    }

    pub fn disable_help_subcommand(self, _is_disabled: bool) -> Self {
        self
    }

    pub fn subcommand_required(self, _is_required: bool) -> Self {
        self
    }

    pub fn arg(mut self, argument: Arg<'c>) -> Result<Self, AllocError> {
        self.arguments.push(argument);
        Ok(self)
    }

    pub fn subcommand(mut self, command: Command<'c>) -> Result<Self, AllocError> {
        self.subcommands.push(command);
        Ok(self)
    }

    pub fn try_get_matches_from<'a>(self, words: &'a [&'a str]) -> Result<ArgMatches<'a>, Error>
    where
        'c: 'a,
    {
        let (word, values) = words
            .split_first()
            .ok_or(Error(ErrorKind::MissingSubcommand))?;
        let command = self.subcommands.into_iter().find(|it| it.name == *word);
        let Command {
            name, arguments, ..
        } = command.ok_or(Error(ErrorKind::InvalidSubcommand))?;
        if values.len() > arguments.len() {
            return Err(Error(ErrorKind::UnknownArgument));
        }
        if arguments.iter().skip(values.len()).any(|it| it.is_required) {
            return Err(Error(ErrorKind::MissingRequiredArgument));
        }
        let found = arguments
            .iter()
            .map(|it| it.name)
            .zip(values.iter().copied())
            .collect();
        Ok(ArgMatches {
            found: Vec::new(),
            subcommand: Some((
                name,
                Box::new(ArgMatches {
                    found,
                    subcommand: None,
                }),
            )),
        })
    }
}

/// The words that the arguments took, by their names, and those of the subcommand.
#[derive(Debug)]
pub struct ArgMatches<'a> {
    found: Vec<(&'a str, &'a str)>,
    subcommand: Option<(&'a str, Box<ArgMatches<'a>>)>,
}

impl<'a> ArgMatches<'a> {
    pub fn get_str(&self, name: &str) -> Option<&'a str> {
        self.found
            .iter()
            .find(|(it, _)| *it == name)
            .map(|(_, word)| *word)
    }

    pub fn subcommand(&self) -> Option<(&'a str, &ArgMatches<'a>)> {
        self.subcommand
            .as_ref()
            .map(|(name, matches)| (*name, &**matches))
    }
}

#[cfg(test)]
mod tests {
    use super::*;

    fn command() -> Command<'static> {
        let copy = Command::new(Global, "copy")
            .arg(Arg::new(Global, "from").required(true))
            .unwrap();
        let copy = copy.arg(Arg::new(Global, "to")).unwrap();
        Command::new(Global, "c")
            .subcommand_required(true)
            .subcommand(copy)
            .unwrap()
    }

    #[test]
    fn each_word_goes_to_its_argument() {
        let matches = command().try_get_matches_from(&["copy", "a", "b"]).unwrap();
        let (name, matches) = matches.subcommand().unwrap();
        assert_eq!(
            (name, matches.get_str("from"), matches.get_str("to")),
            ("copy", Some("a"), Some("b"))
        );
        let matches = command().try_get_matches_from(&["copy", "a"]).unwrap();
        let (_, matches) = matches.subcommand().unwrap();
        assert_eq!(
            (matches.get_str("from"), matches.get_str("to")),
            (Some("a"), None)
        );
    }

    #[test]
    fn words_that_fit_no_subcommand_are_refused() {
        let refused = |words: &[&str]| {
            command()
                .try_get_matches_from(words)
                .err()
                .map(|it| it.kind())
        };
        assert_eq!(refused(&[]), Some(ErrorKind::MissingSubcommand));
        assert_eq!(refused(&["move", "a"]), Some(ErrorKind::InvalidSubcommand));
        assert_eq!(refused(&["copy"]), Some(ErrorKind::MissingRequiredArgument));
        assert_eq!(
            refused(&["copy", "a", "b", "c"]),
            Some(ErrorKind::UnknownArgument)
        );
    }
}
