//! Command lines: what words match, by the definitions of `takes`, `fault_of` and `subcommand_of` of the kit's crate `clap`,
//! for options with a value, flags, and subcommands without subcommands.

use crate::{Random, rounds};
use kit::alloc::{AllocError, Global};
use kit::clap::error::ErrorKind;
use kit::clap::{Arg, ArgAction, ArgMatches, Command, Error};

/// What an argument does.
#[derive(Clone, Copy, PartialEq)]
enum Does {
    Takes,
    Sets,
    Help,
    Version,
}

/// A rule for an argument, which is also its long name.
struct Rule {
    name: &'static str,
    does: Does,
    is_required: bool,
}

/// A command, with the arguments and subcommands that building adds.
struct Shape {
    name: &'static str,
    rules: Vec<Rule>,
    subs: Vec<Shape>,
    has_version: bool,
    needs_subcommand: bool,
}

/// The kinds that an error may have.
type Kinds = Vec<ErrorKind>;

/// What a command's own words match: each argument's value, and whether the words gave it.
type Rows = Vec<(&'static str, String, bool)>;

fn has(rows: &Rows, name: &str) -> bool {
    rows.iter().any(|row| row.0 == name)
}

/// One use of an argument, with these values.
fn used(rule: &Rule, values: &[String], rows: &mut Rows) -> Result<(), Kinds> {
    let value = match (rule.does, values) {
        (Does::Help, _) => return Err(vec![ErrorKind::DisplayHelp]),
        (Does::Version, _) => return Err(vec![ErrorKind::DisplayVersion]),
        (Does::Takes, []) => return Err(vec![ErrorKind::InvalidValue]),
        (Does::Takes, values) => values[0].clone(),
        (Does::Sets, _) => "true".to_owned(),
    };
    if has(rows, rule.name) {
        return Err(vec![ErrorKind::ArgumentConflict]);
    }
    rows.push((rule.name, value, true));
    Ok(())
}

/// An option whose value is being read.
type Pending<'s> = Option<(&'s Rule, Vec<String>)>;

fn settled(pending: &mut Pending<'_>, rows: &mut Rows) -> Result<(), Kinds> {
    match pending.take() {
        Some((rule, values)) => used(rule, &values, rows),
        None => Ok(()),
    }
}

fn short_of(word: &str) -> Option<char> {
    word.strip_prefix('-')?.chars().next().filter(|first| *first != '-')
}

/// What a command of this shape makes of the words behind its name: its rows, and its subcommand with those of that one.
fn level(shape: &Shape, words: &[String]) -> Result<(Rows, Option<(&'static str, Rows)>), Kinds> {
    let (mut rows, mut pending) = (Rows::new(), None);
    let (mut waits, mut is_trailing, mut stopped) = (false, false, None);
    let stray = || match shape.subs.is_empty() {
        true => vec![ErrorKind::UnknownArgument],
        false => vec![ErrorKind::UnknownArgument, ErrorKind::InvalidSubcommand],
    };
    for (place, word) in words.iter().enumerate() {
        if is_trailing {
            return Err(stray());
        }
        if !waits && !shape.subs.is_empty() {
            if word == "help" {
                return Err(vec![ErrorKind::DisplayHelp, ErrorKind::InvalidSubcommand]);
            }
            stopped = shape.subs.iter().find(|sub| sub.name == word).map(|sub| (sub, &words[place + 1..]));
            if stopped.is_some() {
                break;
            }
        }
        if word == "--" {
            is_trailing = true;
        } else if let Some(long) = word.strip_prefix("--") {
            let (name, value) = match long.split_once('=') {
                Some((name, value)) => (name, Some(value.to_owned())),
                None => (long, None),
            };
            let rule = shape.rules.iter().find(|rule| rule.name == name).ok_or(vec![ErrorKind::UnknownArgument])?;
            match (rule.does, value) {
                (Does::Takes, None) => {
                    settled(&mut pending, &mut rows)?;
                    pending = Some((rule, Vec::new()));
                }
                (Does::Takes, Some(value)) => {
                    settled(&mut pending, &mut rows)?;
                    used(rule, &[value], &mut rows)?;
                }
                (_, Some(_)) => return Err(vec![ErrorKind::TooManyValues]),
                (_, None) => {
                    settled(&mut pending, &mut rows)?;
                    used(rule, &[], &mut rows)?;
                }
            }
            waits = pending.is_some();
        } else if let Some(short) = short_of(word) {
            let kind = match short {
                'h' => ErrorKind::DisplayHelp,
                'V' if shape.has_version => ErrorKind::DisplayVersion,
                _ => return Err(vec![ErrorKind::UnknownArgument]),
            };
            settled(&mut pending, &mut rows)?;
            return Err(vec![kind]);
        } else if waits {
            if let Some((_, values)) = &mut pending {
                values.push(word.clone());
            }
            waits = false;
        } else {
            return Err(stray());
        }
    }
    let below = match stopped {
        Some((sub, rest)) => Some((sub.name, level(sub, rest)?.0)),
        None => None,
    };
    settled(&mut pending, &mut rows)?;
    for rule in &shape.rules {
        if rule.does == Does::Sets && !has(&rows, rule.name) {
            rows.push((rule.name, "false".to_owned(), false));
        }
    }
    if shape.needs_subcommand && below.is_none() {
        return Err(vec![ErrorKind::MissingSubcommand]);
    }
    if shape.rules.iter().any(|rule| rule.is_required && !rows.iter().any(|row| row.0 == rule.name && row.2)) {
        return Err(vec![ErrorKind::MissingRequiredArgument]);
    }
    Ok((rows, below))
}

const NAMES: [&str; 4] = ["lose", "los", "seed", "s"];
const SUBS: [&str; 3] = ["run", "step", "s"];

fn shape(random: &mut Random, name: &'static str, depth: usize) -> Shape {
    let mut rules = Vec::new();
    for name in NAMES {
        match random.below(4) {
            0 => rules.push(Rule { name, does: Does::Sets, is_required: false }),
            1 => rules.push(Rule { name, does: Does::Takes, is_required: random.below(3) == 0 }),
            _ => {}
        }
    }
    rules.push(Rule { name: "help", does: Does::Help, is_required: false });
    let has_version = random.below(2) == 0;
    if has_version {
        rules.push(Rule { name: "version", does: Does::Version, is_required: false });
    }
    let mut subs = Vec::new();
    for name in SUBS {
        if depth > 0 && random.below(3) > 0 {
            subs.push(shape(random, name, depth - 1));
        }
    }
    Shape { name, rules, needs_subcommand: !subs.is_empty() && random.below(2) == 0, subs, has_version }
}

/// The command of a shape. Its texts are for help alone.
fn command(random: &mut Random, shape: &Shape) -> Command<'static> {
    let mut command = Command::new(Global, shape.name).subcommand_required(shape.needs_subcommand);
    if shape.has_version {
        command = command.version("1");
    }
    if random.below(2) == 0 {
        command = command.about("about").long_about("all about").after_help("after").after_long_help("long after");
    }
    for rule in &shape.rules {
        let action = match rule.does {
            Does::Takes => ArgAction::Set,
            Does::Sets => ArgAction::SetTrue,
            Does::Help | Does::Version => continue,
        };
        let arg = Arg::new(Global, rule.name).long(rule.name).action(action).required(rule.is_required);
        let arg = arg.value_name("VALUE").help("a text").hide(random.below(2) == 0);
        let value = if rule.does == Does::Takes { " <VALUE>" } else { "" };
        assert_eq!(arg.to_string(), format!("--{}{value}", rule.name));
        assert!(action == ArgAction::Set || action == ArgAction::SetTrue && value.is_empty());
        command = command.arg(arg).unwrap();
    }
    for sub in &shape.subs {
        let below = self::command(random, sub);
        command = command.subcommand(below).unwrap();
    }
    command
}

/// Words that mean something, in any order.
fn words(random: &mut Random) -> Vec<String> {
    let mut words = vec!["program".to_owned()];
    for _ in 0..random.below(7) {
        let name = NAMES[random.below(4)];
        words.push(match random.below(24) {
            0..=6 => format!("--{name}"),
            7..=10 => format!("--{name}={}", random.below(9)),
            11..=15 => SUBS[random.below(3)].to_owned(),
            16..=18 => random.below(99).to_string(),
            19 => ["-h", "-V", "-x", "-hV", "-"][random.below(5)].to_owned(),
            20 => ["--help", "--version", "--help=1", "help"][random.below(4)].to_owned(),
            21 => ["--", "--=", "--x", ""][random.below(4)].to_owned(),
            22 => "-1".to_owned(),
            _ => "é".to_owned(),
        });
    }
    words
}

/// Whether what matched has these rows and no others.
fn has_rows(matches: &ArgMatches<'_>, rows: &Rows) -> bool {
    let value = |name: &str| rows.iter().find(|row| row.0 == name).map(|row| row.1.as_str());
    NAMES.iter().chain(&["help", "version"]).all(|name| matches.get_str(name) == value(name))
}

/// Of clap::Arg: new long action required value_name help hide fmt
/// Of clap::ArgAction: eq
/// Of clap::Command: new version subcommand_required about long_about after_help after_long_help arg subcommand try_get_matches_from
/// Of clap::ArgMatches: get_str subcommand
/// Of clap::error::Error: kind use_stderr fmt
/// Of clap::error::ErrorKind: eq
#[test]
fn words_match_as_they_are_defined_to() {
    let (mut taken, mut entered, mut refused) = (0, 0, 0);
    rounds(|random| {
        let shape = shape(random, "program", 1);
        for _ in 0..50 {
            let words = words(random);
            let lent: Vec<&str> = words.iter().map(String::as_str).collect();
            let wanted = level(&shape, &words[1..]);
            match (command(random, &shape).try_get_matches_from(&lent), wanted) {
                (Ok(matches), Ok((rows, below))) => {
                    taken += 1;
                    assert!(has_rows(&matches, &rows), "{words:?}");
                    assert_eq!(matches.subcommand().map(|sub| sub.0), below.as_ref().map(|sub| sub.0), "{words:?}");
                    if let (Some((_, matches)), Some((_, rows))) = (matches.subcommand(), &below) {
                        entered += 1;
                        assert!(has_rows(matches, rows), "{words:?}");
                    }
                }
                (Err(error), Err(kinds)) => {
                    refused += 1;
                    assert!(kinds.contains(&error.kind()), "{words:?}: {:?}", error.kind());
                    let is_text = matches!(error.kind(), ErrorKind::DisplayHelp | ErrorKind::DisplayVersion);
                    assert!(error.use_stderr() != is_text && error.to_string().starts_with("error: ") != is_text);
                }
                (got, _) => panic!("{words:?} {}", if got.is_ok() { "are taken" } else { "are refused" }),
            }
        }
    });
    assert!(taken > 1000 && entered > 200 && refused > 1000, "{taken} {entered} {refused}");
}

/// Of clap::Command: bin_name
/// Of clap::error::Error: from
#[test]
fn a_name_stands_in_usage_and_memory_is_an_error() {
    let named = Command::new(Global, "one").bin_name("other").unwrap();
    assert!(named.try_get_matches_from(&["", "-h"]).err().unwrap().to_string().contains("Usage: other"));
    assert!(Error::from(AllocError).kind() == ErrorKind::OutOfMemory);
}
