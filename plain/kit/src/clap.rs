//! A command line's grammar, what its words match, and the texts of its help and errors: as much of the crate `clap` as
//! options and subcommands need.

use crate::alloc::{AllocError, Global};
use crate::convert::AsStr;
use std::fmt;
use std::fmt::Write;

pub use error::Error;

type Text = std::string::String;
type List<T> = std::vec::Vec<T>;

/// How wide a line of help may be.
const WIDTH: usize = 100;

/// What an option does.
#[derive(Clone, Copy, Debug, PartialEq, Eq)]
pub enum ArgAction {
    /// Takes a value.
    Set,
    /// Is a flag.
    SetTrue,
    Help,
    Version,
}

/// An option.
#[derive(Clone, Debug)]
pub struct Arg<'a> {
    id: &'a str,
    long: Option<&'a str>,
    short: Option<char>,
    value_name: Option<&'a str>,
    help: Text,
    action: ArgAction,
    required: bool,
    is_hidden: bool,
}

impl<'a> Arg<'a> {
    pub fn new(_: Global, id: &'a str) -> Arg<'a> {
        Arg {
            id,
            long: None,
            short: None,
            value_name: None,
            help: Text::new(),
            action: ArgAction::Set,
            required: false,
            is_hidden: false,
        }
    }

    pub fn long(mut self, name: &'a str) -> Arg<'a> {
        self.long = Some(name);
        self
    }

    pub fn value_name(mut self, name: &'a str) -> Arg<'a> {
        self.value_name = Some(name);
        self
    }

    pub fn help(mut self, text: &'a str) -> Arg<'a> {
        self.help = text.to_owned();
        self
    }

    pub fn action(mut self, action: ArgAction) -> Arg<'a> {
        self.action = action;
        self
    }

    /// Leaves the option out of help.
    pub fn hide(mut self, is_hidden: bool) -> Arg<'a> {
        self.is_hidden = is_hidden;
        self
    }

    pub fn required(mut self, is_required: bool) -> Arg<'a> {
        self.required = is_required;
        self
    }

    fn takes_value(&self) -> bool {
        self.action == ArgAction::Set
    }
}

impl fmt::Display for Arg<'_> {
    fn fmt(&self, f: &mut fmt::Formatter<'_>) -> fmt::Result {
        write!(f, "--{}", self.long.unwrap_or(self.id))?;
        if self.takes_value() {
            write!(f, " <{}>", self.value_name.unwrap_or(self.id))?;
        }
        Ok(())
    }
}

/// A command or a subcommand.
#[derive(Clone, Debug)]
pub struct Command<'a> {
    name: &'a str,
    about: Option<&'a str>,
    long_about: Option<&'a str>,
    after_help: Option<&'a str>,
    after_long_help: Option<&'a str>,
    version: Option<&'a str>,
    needs_subcommand: bool,
    args: List<Arg<'a>>,
    subcommands: List<Command<'a>>,
}

impl<'a> Command<'a> {
    pub fn new(_: Global, name: &'a str) -> Command<'a> {
        Command {
            name,
            about: None,
            long_about: None,
            after_help: None,
            after_long_help: None,
            version: None,
            needs_subcommand: false,
            args: List::new(),
            subcommands: List::new(),
        }
    }

    pub fn about(mut self, text: &'a str) -> Command<'a> {
        self.about = Some(text);
        self
    }

    pub fn long_about(mut self, text: &'a str) -> Command<'a> {
        self.long_about = Some(text);
        self
    }

    pub fn after_help(mut self, text: &'a str) -> Command<'a> {
        self.after_help = Some(text);
        self
    }

    pub fn after_long_help(mut self, text: &'a str) -> Command<'a> {
        self.after_long_help = Some(text);
        self
    }

    pub fn version(mut self, version: &'a str) -> Command<'a> {
        self.version = Some(version);
        self
    }

    pub fn subcommand_required(mut self, is_required: bool) -> Command<'a> {
        self.needs_subcommand = is_required;
        self
    }

    /// The name in usage lines.
    pub fn bin_name(mut self, name: &'a str) -> Result<Command<'a>, AllocError> {
        self.name = name;
        Ok(self)
    }

    pub fn arg(mut self, arg: Arg<'a>) -> Result<Command<'a>, AllocError> {
        self.args.push(arg);
        Ok(self)
    }

    pub fn subcommand(mut self, command: Command<'a>) -> Result<Command<'a>, AllocError> {
        self.subcommands.push(command);
        Ok(self)
    }

    /// What the words match, of which the first is the program's name.
    pub fn try_get_matches_from<S: AsStr>(mut self, words: &'a [S]) -> Result<ArgMatches<'a>, Error> {
        self.build();
        let words: List<&'a str> = words.iter().skip(1).map(|word| word.as_str()).collect();
        let top = Level {
            command: &self,
            path: self.name.to_owned(),
        };
        top.matches(&words)
    }

    /// Adds the options and the subcommand that each command has.
    fn build(&mut self) {
        let has_long_help = self.long_about.is_some() || self.after_long_help.is_some();
        let mut help = Arg::new(Global, "help").long("help").action(ArgAction::Help);
        help.short = Some('h');
        help.help = if has_long_help {
            "Print help (see more with '--help')"
        } else {
            "Print help"
        }
        .to_owned();
        self.args.push(help);
        if self.version.is_some() {
            let mut version = Arg::new(Global, "version").long("version").action(ArgAction::Version);
            version.short = Some('V');
            version.help = "Print version".to_owned();
            self.args.push(version);
        }
        for command in &mut self.subcommands {
            command.build();
        }
        if !self.subcommands.is_empty() {
            let help = Command::new(Global, "help").about("Print this message or the help of the given subcommand(s)");
            self.subcommands.push(help);
        }
    }

    fn has_long_help(&self) -> bool {
        self.long_about.is_some() || self.after_long_help.is_some()
    }
}

/// What words matched.
#[derive(Clone, Debug)]
pub struct ArgMatches<'a> {
    values: List<(&'a str, &'a str)>,
    subcommand: Option<(&'a str, std::boxed::Box<ArgMatches<'a>>)>,
}

impl<'a> ArgMatches<'a> {
    /// The value of an option. That of a flag is `true` or `false`.
    pub fn get_str(&self, id: &str) -> Option<&'a str> {
        self.values
            .iter()
            .find(|(known, _)| *known == id)
            .map(|(_, value)| *value)
    }

    /// The subcommand and what its words matched.
    pub fn subcommand(&self) -> Option<(&'a str, &ArgMatches<'a>)> {
        self.subcommand.as_ref().map(|(name, matches)| (*name, &**matches))
    }
}

/// A command with the names of those above it.
struct Level<'c, 'a> {
    command: &'c Command<'a>,
    path: Text,
}

/// What was read of a command so far.
struct Read<'a> {
    /// The options with their values, as they were met.
    values: List<(&'a str, &'a str)>,
    /// The option whose value is read, with the value.
    pending: Option<(usize, Option<&'a str>)>,
}

impl<'c, 'a> Level<'c, 'a> {
    fn below(&self, command: &'c Command<'a>) -> Level<'c, 'a> {
        let mut path = self.path.clone();
        for arg in self.required() {
            let _ = write!(path, " {arg}");
        }
        let _ = write!(path, " {}", command.name);
        Level { command, path }
    }

    fn required(&self) -> impl Iterator<Item = &'c Arg<'a>> {
        self.command.args.iter().filter(|arg| arg.required)
    }

    fn find(&self, id: &str) -> Option<&'c Arg<'a>> {
        self.command.args.iter().find(|arg| arg.id == id)
    }

    fn find_subcommand(&self, name: &str) -> Option<&'c Command<'a>> {
        self.command.subcommands.iter().find(|command| command.name == name)
    }

    /// Whether the command is the subcommand `help`, which takes names and no options.
    fn is_help(&self) -> bool {
        self.command.args.is_empty()
    }

    fn error(&self, kind: error::ErrorKind, said: &str, usage: Option<Text>) -> Error {
        let mut text = format!("error: {said}");
        if let Some(usage) = usage {
            let _ = write!(text, "\n\n{usage}");
        }
        text.push_str(if self.is_help() {
            "\n"
        } else {
            "\n\nFor more information, try '--help'.\n"
        });
        Error::new(kind, text)
    }

    /// Reads the words of this command and of those below it.
    fn matches(&self, words: &[&'a str]) -> Result<ArgMatches<'a>, Error> {
        let mut read = Read {
            values: List::new(),
            pending: None,
        };
        let mut subcommand = None;
        let mut at = 0;
        let mut is_trailing = false;
        while let Some(word) = words.get(at).copied() {
            at += 1;
            let rest = &words[at..];
            if is_trailing {
                return Err(self.unknown_word(word, true));
            }
            let waits = matches!(read.pending, Some((_, None)));
            if !waits {
                if let Some(command) = self.find_subcommand(word) {
                    if command.name == "help" {
                        return Err(self.help_of(rest));
                    }
                    let matches = self.below(command).matches(rest)?;
                    subcommand = Some((command.name, std::boxed::Box::new(matches)));
                    break;
                }
            }
            if word == "--" {
                is_trailing = true;
            } else if let Some(long) = word.strip_prefix("--") {
                self.long(long, rest, &mut read)?;
            } else if word.starts_with('-') && word.len() > 1 {
                self.short(&word[1..], &mut read)?;
            } else if let (true, Some((_, value))) = (waits, &mut read.pending) {
                *value = Some(word);
            } else {
                return Err(self.unknown_word(word, false));
            }
        }
        self.resolve(&mut read)?;
        if subcommand.is_none() && self.command.needs_subcommand {
            return Err(self.missing_subcommand());
        }
        self.check_required(&read)?;
        for arg in &self.command.args {
            if arg.action == ArgAction::SetTrue && !read.values.iter().any(|(id, _)| *id == arg.id) {
                read.values.push((arg.id, "false"));
            }
        }
        Ok(ArgMatches {
            values: read.values,
            subcommand,
        })
    }

    /// Ends the option whose value was read.
    fn resolve(&self, read: &mut Read<'a>) -> Result<(), Error> {
        let (place, value) = match read.pending.take() {
            Some(pending) => pending,
            None => return Ok(()),
        };
        let arg = &self.command.args[place];
        match value {
            Some(value) => self.put(arg, value, read),
            None => {
                let said = format!("a value is required for '{arg}' but none was supplied");
                Err(self.error(error::ErrorKind::InvalidValue, &said, None))
            }
        }
    }

    fn put(&self, arg: &Arg<'a>, value: &'a str, read: &mut Read<'a>) -> Result<(), Error> {
        if read.values.iter().any(|(id, _)| *id == arg.id) {
            let said = format!("the argument '{arg}' cannot be used multiple times");
            return Err(self.error(error::ErrorKind::ArgumentConflict, &said, Some(self.usage(&[]))));
        }
        read.values.push((arg.id, value));
        Ok(())
    }

    fn long(&self, word: &'a str, rest: &[&'a str], read: &mut Read<'a>) -> Result<(), Error> {
        let (name, value) = match word.split_once('=') {
            Some((name, value)) => (name, Some(value)),
            None => (word, None),
        };
        let place = match self.command.args.iter().position(|arg| arg.long == Some(name)) {
            Some(place) => place,
            None => {
                let _ = self.resolve(read);
                return Err(self.unknown_long(name, rest, read));
            }
        };
        let arg = &self.command.args[place];
        if arg.takes_value() {
            self.resolve(read)?;
            match value {
                Some(value) => self.put(arg, value, read)?,
                None => read.pending = Some((place, None)),
            }
            return Ok(());
        }
        if let Some(value) = value {
            let mut used: List<&str> = read.values.iter().map(|(id, _)| *id).collect();
            used.retain(|id| self.find(id).map_or(false, |arg| !arg.required));
            used.push(arg.id);
            let said = format!("unexpected value '{value}' for '{arg}' found; no more were expected");
            return Err(self.error(error::ErrorKind::TooManyValues, &said, Some(self.usage(&used))));
        }
        self.act(arg, true, read)
    }

    fn short(&self, flags: &'a str, read: &mut Read<'a>) -> Result<(), Error> {
        for flag in flags.chars() {
            match self.command.args.iter().find(|arg| arg.short == Some(flag)) {
                Some(arg) => self.act(arg, false, read)?,
                None => {
                    let said = format!("unexpected argument '-{flag}' found");
                    return Err(self.error(error::ErrorKind::UnknownArgument, &said, Some(self.usage(&[]))));
                }
            }
        }
        Ok(())
    }

    /// What a flag does.
    fn act(&self, arg: &Arg<'a>, is_long: bool, read: &mut Read<'a>) -> Result<(), Error> {
        self.resolve(read)?;
        match arg.action {
            ArgAction::Help => Err(self.help(is_long)),
            ArgAction::Version => {
                let text = format!("{} {}\n", self.command.name, self.command.version.unwrap_or_default());
                Err(Error::new(error::ErrorKind::DisplayVersion, text))
            }
            _ => self.put(arg, "true", read),
        }
    }

    fn unknown_long(&self, name: &str, rest: &[&'a str], read: &mut Read<'a>) -> Error {
        let mut said = format!("unexpected argument '--{name}' found");
        let mut used: List<&str> = read.values.iter().map(|(id, _)| *id).collect();
        if let Some(similar) = similar_long(self.command, name) {
            if let Some(arg) = self.command.args.iter().find(|arg| arg.long == Some(similar)) {
                if !used.contains(&arg.id) {
                    used.push(arg.id);
                }
            }
            let _ = write!(said, "\n\n  tip: a similar argument exists: '--{similar}'");
        } else {
            let below = self.command.subcommands.iter().filter_map(|command| {
                let similar = similar_long(command, name)?;
                let place = rest.iter().position(|word| *word == command.name)?;
                Some((place, similar, command.name))
            });
            if let Some((_, similar, command)) = below.min_by_key(|found| found.0) {
                let _ = write!(said, "\n\n  tip: '{command} --{similar}' exists");
            }
        }
        self.error(error::ErrorKind::UnknownArgument, &said, Some(self.usage(&used)))
    }

    /// The error for a word that is neither an option nor a value.
    fn unknown_word(&self, word: &str, is_trailing: bool) -> Error {
        use error::ErrorKind::{InvalidSubcommand, UnknownArgument};
        let usage = Some(self.usage(&[]));
        let mut said = format!("unexpected argument '{word}' found");
        if is_trailing && self.find_subcommand(word).is_some() {
            let _ = write!(
                said,
                "\n\n  tip: subcommand '{word}' exists; to use it, remove the '--' before it"
            );
            return self.error(UnknownArgument, &said, usage);
        }
        if self.command.subcommands.is_empty() {
            return self.error(UnknownArgument, &said, usage);
        }
        let mut said = format!("unrecognized subcommand '{word}'");
        let similar = similar(word, self.command.subcommands.iter().map(|command| command.name));
        if !similar.is_empty() {
            said.push_str("\n\n  tip: ");
            said.push_str(if similar.len() == 1 {
                "a similar subcommand exists: "
            } else {
                "some similar subcommands exist: "
            });
            let quoted: List<Text> = similar.iter().map(|name| format!("'{name}'")).collect();
            said.push_str(&quoted.join(", "));
        }
        self.error(InvalidSubcommand, &said, usage)
    }

    fn missing_subcommand(&self) -> Error {
        let names: List<&str> = self.command.subcommands.iter().map(|command| command.name).collect();
        let said = format!(
            "'{}' requires a subcommand but one was not provided\n  [subcommands: {}]",
            self.path,
            names.join(", ")
        );
        self.error(error::ErrorKind::MissingSubcommand, &said, Some(self.usage(&[])))
    }

    fn check_required(&self, read: &Read<'a>) -> Result<(), Error> {
        let mut used: List<&str> = read.values.iter().map(|(id, _)| *id).collect();
        let mut said = Text::from("the following required arguments were not provided:");
        let mut is_whole = true;
        for arg in self.required() {
            if !used.contains(&arg.id) {
                is_whole = false;
                let _ = write!(said, "\n  {arg}");
            }
        }
        if is_whole {
            return Ok(());
        }
        used.extend(self.required().map(|arg| arg.id));
        Err(self.error(
            error::ErrorKind::MissingRequiredArgument,
            &said,
            Some(self.usage(&used)),
        ))
    }

    /// The usage line, with these options or, if there are none, with all.
    fn usage(&self, used: &[&str]) -> Text {
        let mut text = format!("Usage: {}", self.path);
        let is_open = |arg: &&Arg<'_>| matches!(arg.action, ArgAction::Set | ArgAction::SetTrue) && !arg.required;
        if used.is_empty() && self.command.args.iter().any(|arg| is_open(&arg)) {
            text.push_str(" [OPTIONS]");
        }
        let mut shown: List<&str> = List::new();
        for id in self.required().map(|arg| arg.id).chain(used.iter().copied()) {
            if let (false, Some(arg)) = (shown.contains(&id), self.find(id)) {
                shown.push(id);
                let _ = write!(text, " {arg}");
            }
        }
        if self.command.needs_subcommand {
            text.push_str(" <COMMAND>");
        } else if self.is_help() {
            text.push_str(" [COMMAND]...");
        }
        text
    }

    /// The help that these words ask for, behind the word `help`.
    fn help_of(&self, words: &[&'a str]) -> Error {
        let (word, rest) = match words.split_first() {
            Some(split) => split,
            None => return self.help(true),
        };
        match self.find_subcommand(word) {
            Some(command) => self.below(command).help_of(rest),
            None => {
                let said = format!("unrecognized subcommand '{word}'");
                self.error(error::ErrorKind::InvalidSubcommand, &said, Some(self.usage(&[])))
            }
        }
    }

    fn help(&self, is_long: bool) -> Error {
        let command = self.command;
        let is_long = is_long && command.has_long_help();
        let either = |long: Option<&'a str>, short: Option<&'a str>| if is_long { long.or(short) } else { short };
        let mut text = Text::new();
        if let Some(about) = either(command.long_about, command.about) {
            let _ = writeln!(text, "{about}\n");
        }
        text.push_str(&self.usage(&[]));
        if self.is_help() {
            text.push_str("\n\nArguments:\n  [COMMAND]...  Print help for the subcommand(s)");
        } else {
            if !command.subcommands.is_empty() {
                text.push_str("\n\nCommands:");
                self.help_subcommands(&mut text);
            }
            text.push_str("\n\nOptions:");
            self.help_options(&mut text, is_long);
        }
        if let Some(after) = either(command.after_long_help, command.after_help) {
            let _ = write!(text, "\n\n{after}");
        }
        Error::new(error::ErrorKind::DisplayHelp, format!("{}\n", text.trim_end()))
    }

    fn help_subcommands(&self, text: &mut Text) {
        let commands = &self.command.subcommands;
        let longest = commands
            .iter()
            .map(|command| width(command.name))
            .max()
            .unwrap_or(0)
            .max(2);
        let about = |command: &Command<'a>| command.about.or(command.long_about).unwrap_or_default();
        let is_below = commands
            .iter()
            .any(|command| is_too_wide(width(about(command)), longest));
        for command in commands {
            let _ = write!(text, "\n  {}", command.name);
            if is_below {
                put_indented(text, "\n          ", about(command), 10);
            } else {
                let gap = " ".repeat(longest + 2 - width(command.name));
                put_indented(text, &gap, about(command), longest + 4);
            }
        }
    }

    fn help_options(&self, text: &mut Text, is_long: bool) {
        let args: List<&Arg> = self.command.args.iter().filter(|arg| !arg.is_hidden).collect();
        let widths = args.iter().map(|arg| width(&arg.to_string()) + 4);
        let longest = widths.max().unwrap_or(0).max(2);
        let is_below = is_long || args.iter().any(|arg| is_too_wide(width(&arg.help), longest));
        for (place, arg) in args.iter().enumerate() {
            if place > 0 && is_long {
                text.push('\n');
            }
            match arg.short {
                Some(short) => {
                    let _ = write!(text, "\n  -{short}, {arg}");
                }
                None => {
                    let _ = write!(text, "\n      {arg}");
                }
            }
            let help = if is_long && arg.action == ArgAction::Help {
                "Print help (see a summary with '-h')"
            } else {
                &arg.help
            };
            if is_below {
                put_indented(text, "\n          ", help, 10);
            } else {
                let gap = " ".repeat(longest + 2 - width(&arg.to_string()) - 4);
                put_indented(text, &gap, help, longest + 4);
            }
        }
    }
}

fn width(text: &str) -> usize {
    text.chars().count()
}

/// Whether help of this width goes below its option.
fn is_too_wide(help: usize, longest: usize) -> bool {
    let taken = longest + 4;
    WIDTH >= taken && taken > 40 && help > WIDTH - taken
}

/// Adds a text, each line but the first behind so many spaces.
fn put_indented(text: &mut Text, gap: &str, said: &str, indent: usize) {
    text.push_str(gap);
    for (number, line) in said.split('\n').enumerate() {
        if number > 0 {
            let _ = write!(text, "\n{:indent$}", "");
        }
        text.push_str(line);
    }
}

/// The names that are like a word, the likest last.
fn similar<'a>(word: &str, names: impl Iterator<Item = &'a str>) -> List<&'a str> {
    let mut found: List<(f64, &'a str)> = List::new();
    for name in names {
        let likeness = jaro(word, name);
        if likeness > 0.7 {
            let at = found.iter().filter(|other| other.0 <= likeness).count();
            found.insert(at, (likeness, name));
        }
    }
    found.into_iter().map(|(_, name)| name).collect()
}

fn similar_long<'a>(command: &Command<'a>, word: &str) -> Option<&'a str> {
    similar(word, command.args.iter().filter_map(|arg| arg.long))
        .last()
        .copied()
}

/// Jaro's likeness of two words, 0 to 1.
fn jaro(one: &str, other: &str) -> f64 {
    let (one, other): (List<char>, List<char>) = (one.chars().collect(), other.chars().collect());
    if one.is_empty() && other.is_empty() {
        return 1.0;
    }
    if one.is_empty() || other.is_empty() {
        return 0.0;
    }
    let range = (one.len().max(other.len()) / 2).saturating_sub(1);
    let mut is_met = vec![false; other.len()];
    let mut met = List::new();
    for (at, glyph) in one.iter().enumerate() {
        let (from, to) = (at.saturating_sub(range), (at + range + 1).min(other.len()));
        if let Some(place) = (from..to).find(|place| !is_met[*place] && other[*place] == *glyph) {
            is_met[place] = true;
            met.push(*glyph);
        }
    }
    if met.is_empty() {
        return 0.0;
    }
    let theirs = other
        .iter()
        .zip(&is_met)
        .filter(|(_, is_met)| **is_met)
        .map(|(glyph, _)| glyph);
    let moved = met.iter().zip(theirs).filter(|(a, b)| a != b).count() / 2;
    let matches = met.len() as f64;
    (matches / one.len() as f64 + matches / other.len() as f64 + (matches - moved as f64) / matches) / 3.0
}

pub mod error {
    //! Why words match nothing.

    use super::{AllocError, Text, fmt};

    /// Kinds of errors, also of texts that were asked for.
    #[derive(Clone, Copy, Debug, PartialEq, Eq)]
    pub enum ErrorKind {
        InvalidValue,
        UnknownArgument,
        InvalidSubcommand,
        TooManyValues,
        ArgumentConflict,
        MissingRequiredArgument,
        MissingSubcommand,
        DisplayHelp,
        DisplayVersion,
        OutOfMemory,
    }

    /// Why words match nothing, or a text that they ask for.
    #[derive(Clone, Debug)]
    pub struct Error {
        kind: ErrorKind,
        text: Text,
    }

    impl Error {
        pub(super) fn new(kind: ErrorKind, text: Text) -> Error {
            Error { kind, text }
        }

        pub fn kind(&self) -> ErrorKind {
            self.kind
        }

        /// Whether it goes to standard error.
        pub fn use_stderr(&self) -> bool {
            !matches!(self.kind, ErrorKind::DisplayHelp | ErrorKind::DisplayVersion)
        }
    }

    impl fmt::Display for Error {
        fn fmt(&self, f: &mut fmt::Formatter<'_>) -> fmt::Result {
            f.write_str(&self.text)
        }
    }

    impl std::error::Error for Error {}

    impl From<AllocError> for Error {
        fn from(_: AllocError) -> Error {
            Error::new(ErrorKind::OutOfMemory, Text::from("error: memory allocation failed"))
        }
    }
}

#[cfg(test)]
mod tests {
    use super::error::ErrorKind;
    use super::*;

    fn greet() -> Command<'static> {
        let name = Arg::new(Global, "name")
            .long("name")
            .value_name("NAME")
            .help("Whom")
            .required(true);
        let loud = Arg::new(Global, "loud")
            .long("loud")
            .action(ArgAction::SetTrue)
            .help("Loud");
        let hi = Command::new(Global, "hi")
            .about("Greets")
            .arg(name)
            .unwrap()
            .arg(loud)
            .unwrap();
        let top = Command::new(Global, "talk")
            .about("Talks")
            .version("1.0")
            .subcommand_required(true);
        top.subcommand(hi).unwrap()
    }

    fn fails(words: &'static [&'static str]) -> (ErrorKind, Text) {
        match greet().try_get_matches_from(words) {
            Ok(matches) => panic!("{matches:?}"),
            Err(error) => (error.kind(), error.to_string()),
        }
    }

    #[test]
    fn words_match() {
        let matches = greet()
            .try_get_matches_from(&["talk", "hi", "--name", "a", "--loud"])
            .unwrap();
        let (name, hi) = matches.subcommand().unwrap();
        assert_eq!(
            (name, hi.get_str("name"), hi.get_str("loud")),
            ("hi", Some("a"), Some("true"))
        );
    }

    #[test]
    fn errors_name_what_was_wrong() {
        assert_eq!(fails(&["talk"]).0, ErrorKind::MissingSubcommand);
        assert_eq!(fails(&["talk", "hi", "--name"]).0, ErrorKind::InvalidValue);
        assert_eq!(
            fails(&["talk", "hi", "--nam=b"]).1,
            "error: unexpected argument '--nam' found\n\n  tip: a similar argument exists: '--name'\n\n\
             Usage: talk hi --name <NAME>\n\nFor more information, try '--help'.\n"
        );
        assert_eq!(
            fails(&["talk", "hi", "--help"]).1,
            "Greets\n\nUsage: talk hi [OPTIONS] --name <NAME>\n\nOptions:\n      --name <NAME>  Whom\n      \
             --loud         Loud\n  -h, --help         Print help\n"
        );
    }

    #[test]
    fn likeness() {
        assert!((jaro("martha", "marhta") - 0.944).abs() < 0.001);
        assert!((jaro("dixon", "dicksonx") - 0.767).abs() < 0.001);
        assert_eq!(jaro("a", ""), 0.0);
    }
}
