//! Words of a command line.

use std::fmt::Display;
use std::str::FromStr;

/// What a command takes.
pub struct Command {
    /// Its name.
    pub name: &'static str,
    /// Its words, by their names: one in brackets may be left out, and one with dots may be repeated.
    words: &'static [&'static str],
    /// Options that have a value, without their dashes.
    options: &'static [&'static [&'static str]],
    /// Those that have none.
    flags: &'static [&'static str],
}

/// Where a cluster is.
const ON_ONE_MACHINE: &[&str] = &["address", "port", "hosts", "coordinators"];
const WHERE: &[&str] = &["address", "port", "hosts", "coordinators", "cluster", "client-secret"];
/// How its nodes run.
const NODE: &[&str] =
    &["factor", "segment", "tick", "silence", "slow", "long", "beside", "hear", "reserve", "store", "store-name"];
const UP_FLAGS: &[&str] = &["record", "faults", "secure", "insecure", "open-pages"];
const SERVE_FLAGS: &[&str] = &["record", "faults", "insecure", "open-pages", "supervised"];
/// Who operates a cluster that has no security says so.
const OPERATES: &[&str] = &["insecure"];
const BENCH: &[&str] = &["clients", "seconds", "size", "table", "op", "keys", "most", "etcd", "processes"];

const fn command(
    name: &'static str,
    words: &'static [&'static str],
    options: &'static [&'static [&'static str]],
    flags: &'static [&'static str],
) -> Command {
    Command { name, words, options, flags }
}

/// All commands.
const COMMANDS: [Command; 16] = [
    command("up", &[], &[ON_ONE_MACHINE, &["folder"], NODE], UP_FLAGS),
    command(
        "serve",
        &[],
        &[WHERE, &["folder", "secret", "operator", "index", "coordinator", "listen"], NODE],
        SERVE_FLAGS,
    ),
    command("restart", &[], &[&["folder"]], &[]),
    command("add", &[], &[&["folder", "at", "client-secret"]], &[]),
    command("leave", &["HOST"], &[&["folder", "cluster", "client-secret"]], &[]),
    command("move", &["TO"], &[&["folder", "secret", "store", "store-name"]], &[]),
    command("create", &["TABLE", "[HOST]"], &[WHERE, &["operator"]], OPERATES),
    command("split", &["TABLE", "KEY"], &[WHERE, &["operator"]], OPERATES),
    command("put", &["TABLE", "KEY", "VALUE"], &[WHERE, &["patience", "if-version"]], &["if-absent"]),
    command("get", &["TABLE", "KEY"], &[WHERE, &["patience"]], &[]),
    command("delete", &["TABLE", "KEY"], &[WHERE, &["patience", "if-version"]], &[]),
    command("scan", &["TABLE", "[FIRST]", "[LAST]"], &[WHERE, &["patience", "most"]], &[]),
    command("status", &[], &[WHERE], &[]),
    command("bench", &[], &[WHERE, BENCH], &[]),
    command("trace", &["FILE.."], &[], &[]),
    command(
        "storm",
        &[],
        &[&["port", "folder", "seed", "seconds", "gap", "only", "coordinators"]],
        &["secure", "insecure"],
    ),
];

impl Command {
    /// The command of this name.
    pub fn named(name: &str) -> Result<&'static Command, String> {
        let found = COMMANDS.iter().find(|command| command.name == name);
        found.ok_or(format!("there is no command {name}: `sevunthi help` shows them"))
    }

    fn has_option(&self, name: &str) -> bool {
        self.options.iter().any(|names| names.contains(&name))
    }

    /// What is wrong with these words, if something is.
    fn check(&self, words: &[String]) -> Result<(), String> {
        let needed = self.words.iter().take_while(|name| !name.starts_with('[')).count();
        if let Some(missing) = self.words[..needed].get(words.len()) {
            let missing = missing.trim_end_matches('.');
            return Err(format!("{missing} is missing: {} {}", self.name, self.words.join(" ")));
        }
        let takes_any = self.words.last().is_some_and(|name| name.ends_with(".."));
        let Some(extra) = words.get(self.words.len()).filter(|_| !takes_any) else { return Ok(()) };
        let takes = if self.words.is_empty() { "no words".to_string() } else { self.words.join(" ") };
        let hint = if self.name == "put" { "; a value with spaces stands in quotes" } else { "" };
        Err(format!("{} takes {takes}, and {extra:?} is too much{hint}", self.name))
    }
}

/// The words behind a command: options with a value, as `--hosts 4` or `--hosts=4`, flags, as `--record`, and others in
/// their order. What comes behind `--` is no option.
#[derive(Default)]
pub struct Options {
    values: Vec<(String, String)>,
    flags: Vec<String>,
    words: Vec<String>,
}

impl Options {
    /// The words of this command, if it takes them.
    pub fn read(command: &Command, words: impl IntoIterator<Item = String>) -> Result<Options, String> {
        let mut options = Options::default();
        let mut words = words.into_iter();
        while let Some(word) = words.next() {
            let Some(name) = word.strip_prefix("--") else {
                options.words.push(word);
                continue;
            };
            if name.is_empty() {
                options.words.extend(words.by_ref());
            } else if command.flags.contains(&name) {
                options.flags.push(word);
            } else {
                let (name, value) = match name.split_once('=') {
                    Some((name, value)) => (name, Some(value.to_string())),
                    None => (name, None),
                };
                if command.flags.contains(&name) {
                    return Err(format!("--{name} has no value"));
                }
                if !command.has_option(name) {
                    let hint =
                        if command.name == "put" { "; a value that begins with -- stands behind --" } else { "" };
                    return Err(format!("{} has no option --{name}{hint}", command.name));
                }
                let value = value.or_else(|| words.next().filter(|value| !value.starts_with("--")));
                options.values.push((format!("--{name}"), value.ok_or(format!("the value of --{name} is missing"))?));
            }
        }
        command.check(&options.words)?;
        Ok(options)
    }

    /// The same, where an option that is not given has its value in these, of which only the values count: the last
    /// one of a name does.
    pub fn with_defaults(&self, defaults: &Options) -> Options {
        let values = [&defaults.values[..], &self.values].concat();
        Options { values, flags: self.flags.clone(), words: self.words.clone() }
    }

    /// The value of an option, or this; the last one, where it is given twice.
    pub fn get<T: FromStr>(&self, name: &str, other: T) -> Result<T, String>
    where
        T::Err: Display,
    {
        let Some(value) = self.given(name) else { return Ok(other) };
        value.parse().map_err(|error| format!("{name} {value}: {error}"))
    }

    /// The number of an option, or this, where it is between these.
    pub fn between<T: FromStr + PartialOrd + Display>(
        &self,
        name: &str,
        other: T,
        least: T,
        most: T,
    ) -> Result<T, String> {
        let Some(value) = self.given(name) else { return Ok(other) };
        match value.parse() {
            Ok(number) if least <= number && number <= most => Ok(number),
            _ => Err(format!("{name} is a number of {least} to {most}, and not {value}")),
        }
    }

    /// The value of an option that has to be there.
    pub fn needed(&self, name: &str) -> Result<&str, String> {
        self.given(name).filter(|value| !value.is_empty()).ok_or(format!("{name} is missing"))
    }

    /// The value of an option, if it is given.
    pub fn given(&self, name: &str) -> Option<&str> {
        self.values.iter().rev().find(|(other, _)| other == name).map(|(_, value)| value.as_str())
    }

    /// Whether a flag is there.
    pub fn has(&self, name: &str) -> bool {
        self.flags.iter().any(|flag| flag == name)
    }

    /// The word at this place that belongs to no option.
    pub fn word(&self, place: usize) -> Option<&str> {
        self.words.get(place).map(String::as_str)
    }

    /// All words that belong to no option.
    pub fn words(&self) -> &[String] {
        &self.words
    }
}

#[cfg(test)]
mod tests {
    use super::*;

    fn read(line: &str) -> Result<Options, String> {
        let mut words = line.split(' ').map(String::from);
        Options::read(Command::named(&words.next().unwrap_or_default())?, words)
    }

    #[test]
    fn options_stand_anywhere_in_either_form() -> Result<(), String> {
        let options = read("put 1 --port=7400 5 --hosts 3 hello")?;
        assert_eq!((options.get("--port", 0)?, options.get("--hosts", 0)?), (7400, 3));
        assert_eq!(options.words(), ["1", "5", "hello"]);
        assert_eq!(read("put 1 5 --hosts 9 -- --x")?.words(), ["1", "5", "--x"]);
        assert_eq!(read("get 1 5 --port 1 --port 2")?.get("--port", 0)?, 2);
        assert!(read("up --record")?.has("--record"));
        assert!(!read("up --factor 1")?.has("--record"));
        Ok(())
    }

    #[test]
    fn what_a_command_does_not_take_is_refused() {
        for (line, why) in [
            ("get 1 5 --hots 7", "get has no option --hots"),
            ("up --host 3", "up has no option --host"),
            ("put 1 5 --x", "put has no option --x; a value that begins with -- stands behind --"),
            ("up --record=1", "--record has no value"),
            ("up --port --record", "the value of --port is missing"),
            ("up --port", "the value of --port is missing"),
            (
                "put 1 5 two words",
                "put takes TABLE KEY VALUE, and \"words\" is too much; a value with spaces stands in quotes",
            ),
            ("split 1 10 20", "split takes TABLE KEY, and \"20\" is too much"),
            ("status 1", "status takes no words, and \"1\" is too much"),
            ("put 1 5", "VALUE is missing: put TABLE KEY VALUE"),
            ("create", "TABLE is missing: create TABLE [HOST]"),
            ("trace", "FILE is missing: trace FILE.."),
            ("frob", "there is no command frob: `sevunthi help` shows them"),
        ] {
            assert_eq!(read(line).err().as_deref(), Some(why), "{line}");
        }
        assert!(read("create 1").is_ok() && read("create 1 2").is_ok() && read("trace a b c").is_ok());
    }

    #[test]
    fn numbers_have_bounds() {
        let factor = |line: &str| read(line).and_then(|options| options.between("--factor", 2, 1, 5));
        assert_eq!(factor("up"), Ok(2));
        assert_eq!(factor("up --factor 5"), Ok(5));
        for wrong in ["0", "6", "abc", "-1", "900"] {
            assert!(factor(&format!("up --factor {wrong}")).is_err());
        }
    }
}
