//! The arguments: a command, its files and its options.

use crate::files::{is_input, printable};
use reference::text::number;
use std::collections::VecDeque;
use std::ffi::{OsStr, OsString};
use std::os::unix::ffi::{OsStrExt, OsStringExt};

/// What is asked of the tool.
#[derive(Clone, Debug, PartialEq, Eq)]
pub enum Request {
    Help(Option<&'static Command>),
    Version,
    Check(Check),
    Run(Run),
    Round(Run),
    Show(Show),
    Readers(Readers),
    Explain(Explain),
}

/// A command and what it takes.
#[derive(Debug, PartialEq, Eq)]
pub struct Command {
    pub name: &'static str,
    /// The names of its files.
    files: &'static [&'static str],
    after: After,
    /// Options with a value, and flags, which have none.
    options: &'static [&'static str],
    flags: &'static [&'static str],
}

/// What may stand after a command's files.
#[derive(Debug, PartialEq, Eq)]
enum After {
    Nothing,
    /// One more file.
    File,
    /// More of the last.
    Files,
    /// One argument that is no file.
    Argument,
}

static COMMANDS: [Command; 6] = [
    Command {
        name: "check",
        files: &["SHEET", "SCRIPT"],
        after: After::Files,
        options: &["--names"],
        flags: &["--json"],
    },
    Command {
        name: "run",
        files: &["SHEET", "SCRIPT", "MEMORY"],
        after: After::Nothing,
        options: &["--as", "--budget", "--names"],
        flags: &["--write", "--plain", "--json"],
    },
    Command {
        name: "round",
        files: &["SHEET", "SCRIPTS", "MEMORY"],
        after: After::Nothing,
        options: &["--as", "--budget", "--names"],
        flags: &["--write", "--plain", "--json"],
    },
    Command {
        name: "show",
        files: &["SHEET", "MEMORY"],
        after: After::Nothing,
        options: &["--to", "--names"],
        flags: &["--plain", "--json"],
    },
    Command {
        name: "readers",
        files: &["SHEET"],
        after: After::Argument,
        options: &["--names"],
        flags: &["--json"],
    },
    Command {
        name: "explain",
        files: &["SHEET"],
        after: After::File,
        options: &["--names"],
        flags: &["--json"],
    },
];

/// What the answer looks like.
#[derive(Clone, Copy, Debug, PartialEq, Eq)]
pub enum Form {
    /// For people.
    Words,
    /// Answer and memory text.
    Plain,
    Json,
}

#[derive(Clone, Debug, PartialEq, Eq)]
pub struct Check {
    pub sheet: OsString,
    pub scripts: Vec<OsString>,
    pub names: Option<OsString>,
    pub form: Form,
}

/// A run, or a round.
#[derive(Clone, Debug, PartialEq, Eq)]
pub struct Run {
    /// Which of the two.
    pub command: &'static Command,
    pub sheet: OsString,
    /// The script, or the scripts of a round.
    pub script: OsString,
    pub memory: OsString,
    /// The authority as a list of names and numbers.
    pub authority: String,
    pub budget: u32,
    pub write: bool,
    pub names: Option<OsString>,
    pub form: Form,
}

#[derive(Clone, Debug, PartialEq, Eq)]
pub struct Show {
    pub sheet: OsString,
    pub memory: OsString,
    /// The group as a list of names and numbers.
    pub group: String,
    pub names: Option<OsString>,
    pub form: Form,
}

#[derive(Clone, Debug, PartialEq, Eq)]
pub struct Readers {
    pub sheet: OsString,
    /// The label by its number or name; without it every label is asked about.
    pub label: Option<String>,
    pub names: Option<OsString>,
    pub form: Form,
}

#[derive(Clone, Debug, PartialEq, Eq)]
pub struct Explain {
    pub sheet: OsString,
    /// The scripts that are asked about; without them the sheet is.
    pub scripts: Option<OsString>,
    pub names: Option<OsString>,
    pub form: Form,
}

/// Arguments that aren't of their form.
#[derive(Clone, Debug, PartialEq, Eq)]
pub struct Misuse {
    /// The command whose usage is to be shown.
    pub command: Option<&'static Command>,
    pub what: String,
}

/// Reads the arguments, the program's name not among them.
pub fn parse(args: Vec<OsString>) -> Result<Request, Misuse> {
    let mut args = VecDeque::from(args);
    let general = |what: String| Misuse { command: None, what };
    let Some(first) = args.pop_front() else {
        return Err(general("a command is missing".to_string()));
    };
    match first.as_bytes() {
        b"help" => help(args).map_err(general),
        b"--help" | b"-h" => Ok(Request::Help(None)),
        b"--version" | b"-V" => match args.front() {
            None => Ok(Request::Version),
            Some(extra) => Err(general(format!("{} is one argument too many", quoted(extra)))),
        },
        _ => match find(&first) {
            None => Err(general(format!("{} is no command", quoted(&first)))),
            Some(command) => {
                request(command, args).map_err(|what| Misuse { command: Some(command), what })
            }
        },
    }
}

fn find(name: &OsStr) -> Option<&'static Command> {
    COMMANDS.iter().find(|command| name == command.name)
}

/// A command by its name.
pub fn command(name: &str) -> Option<&'static Command> {
    find(OsStr::new(name))
}

/// `help`, and `help COMMAND`.
fn help(mut args: VecDeque<OsString>) -> Result<Request, String> {
    let Some(topic) = args.pop_front().filter(|topic| topic != "--help") else {
        return Ok(Request::Help(None));
    };
    if let Some(extra) = args.front() {
        return Err(format!("{} is one argument too many", quoted(extra)));
    }
    let known = find(&topic).map(|command| Request::Help(Some(command)));
    known.ok_or_else(|| format!("{} is no command", quoted(&topic)))
}

fn request(command: &'static Command, args: VecDeque<OsString>) -> Result<Request, String> {
    let Some(mut given) = collect(command, args)? else {
        return Ok(Request::Help(Some(command)));
    };
    let names = given.value("--names");
    let inputs = given.files.iter().chain(&names).filter(|name| is_input(name)).count();
    if inputs > 1 {
        return Err("`-` can stand for one file only".to_string());
    }
    let form = given.form()?;
    let sheet = given.file();
    Ok(match command.name {
        "check" => Request::Check(Check { sheet, scripts: given.files.into(), names, form }),
        "run" => Request::Run(run(command, given, sheet, names, form)?),
        "round" => Request::Round(run(command, given, sheet, names, form)?),
        "show" => Request::Show(Show {
            sheet,
            memory: given.file(),
            group: given.list("--to")?,
            names,
            form,
        }),
        "readers" => Request::Readers(Readers { sheet, label: given.label()?, names, form }),
        _ => {
            let scripts = given.files.pop_front();
            Request::Explain(Explain { sheet, scripts, names, form })
        }
    })
}

fn run(
    command: &'static Command,
    mut given: Given,
    sheet: OsString,
    names: Option<OsString>,
    form: Form,
) -> Result<Run, String> {
    let (script, memory) = (given.file(), given.file());
    let authority = given.list("--as")?;
    let budget = given.required("--budget")?;
    let budget = number(budget.as_bytes())
        .map_err(|_| format!("--budget {} isn't a number from 0 to 4294967295", quoted(&budget)))?;
    let write = given.flag("--write");
    if write && is_input(&memory) {
        return Err("--write replaces a file, and MEMORY is `-`".to_string());
    }
    Ok(Run { command, sheet, script, memory, authority, budget, write, names, form })
}

/// The arguments of a command by their kind.
#[derive(Default)]
struct Given {
    files: VecDeque<OsString>,
    /// What stands after the files and is none.
    argument: Option<OsString>,
    options: Vec<(&'static str, OsString)>,
    flags: Vec<&'static str>,
}

/// Sorts the arguments, or nothing if help is asked for.
fn collect(command: &Command, mut args: VecDeque<OsString>) -> Result<Option<Given>, String> {
    let mut given = Given::default();
    while let Some(arg) = args.pop_front() {
        match arg.as_bytes() {
            b"--" => given.files.append(&mut args),
            b"--help" | b"-h" => return Ok(None),
            [b'-', _, ..] => given.option(command, arg, &mut args)?,
            _ => given.files.push_back(arg),
        }
    }
    if let Some(missing) = command.files.get(given.files.len()) {
        return Err(format!("{missing} is missing"));
    }
    let files = command.files.len();
    let (most, what) = match command.after {
        After::Files => return Ok(Some(given)),
        After::Nothing => (files, "file"),
        After::File => (files + 1, "file"),
        After::Argument => (files + 1, "argument"),
    };
    if let Some(extra) = given.files.get(most) {
        return Err(format!("{} is one {what} too many", quoted(extra)));
    }
    if command.after == After::Argument {
        given.argument = given.files.split_off(files).pop_front();
    }
    Ok(Some(given))
}

impl Given {
    /// Takes an option or a flag. An option's value stands behind `=` or is the next argument.
    fn option(
        &mut self,
        command: &Command,
        arg: OsString,
        rest: &mut VecDeque<OsString>,
    ) -> Result<(), String> {
        let bytes = arg.as_bytes();
        let end = bytes.iter().position(|&byte| byte == b'=').unwrap_or(bytes.len());
        let known = |names: &[&'static str]| {
            names.iter().copied().find(|name| name.as_bytes() == &bytes[..end])
        };
        let inline = bytes.get(end + 1..).map(|value| OsString::from_vec(value.to_vec()));
        if let Some(flag) = known(command.flags) {
            return match inline {
                Some(_) => Err(format!("{flag} takes no value")),
                None => self.add_flag(flag),
            };
        }
        let Some(option) = known(command.options) else {
            return Err(format!("{} is no option of {}", quoted(&arg), command.name));
        };
        // an option behind it means that the value was forgotten
        let next = || match rest.front()?.as_bytes().starts_with(b"--") {
            true => None,
            false => rest.pop_front(),
        };
        let value =
            inline.or_else(next).ok_or_else(|| format!("the value of {option} is missing"))?;
        self.add_option(option, value)
    }

    fn add_flag(&mut self, flag: &'static str) -> Result<(), String> {
        if self.flags.contains(&flag) {
            return Err(format!("{flag} stands twice"));
        }
        self.flags.push(flag);
        Ok(())
    }

    fn add_option(&mut self, option: &'static str, value: OsString) -> Result<(), String> {
        if self.options.iter().any(|(earlier, _)| *earlier == option) {
            return Err(format!("{option} stands twice"));
        }
        self.options.push((option, value));
        Ok(())
    }

    /// The next file. There are as many as the command takes.
    fn file(&mut self) -> OsString {
        self.files.pop_front().unwrap_or_default()
    }

    fn flag(&self, flag: &str) -> bool {
        self.flags.contains(&flag)
    }

    fn value(&mut self, option: &str) -> Option<OsString> {
        let place = self.options.iter().position(|(given, _)| *given == option)?;
        Some(self.options.remove(place).1)
    }

    fn required(&mut self, option: &str) -> Result<OsString, String> {
        self.value(option).ok_or_else(|| format!("{option} is missing"))
    }

    /// A comma list of principals, which are looked up when the names are known.
    fn list(&mut self, option: &str) -> Result<String, String> {
        let wrong = |list: OsString| format!("{option} {} isn't a list", quoted(&list));
        self.required(option)?.into_string().map_err(wrong)
    }

    /// A label, which is looked up when the names are known.
    fn label(&mut self) -> Result<Option<String>, String> {
        let wrong = |label: OsString| format!("LABEL {} isn't a name or a number", quoted(&label));
        self.argument.take().map(|label| label.into_string().map_err(wrong)).transpose()
    }

    fn form(&self) -> Result<Form, String> {
        match (self.flag("--plain"), self.flag("--json")) {
            (true, true) => Err("--plain and --json are two forms: give one".to_string()),
            (true, false) => Ok(Form::Plain),
            (false, true) => Ok(Form::Json),
            (false, false) => Ok(Form::Words),
        }
    }
}

/// An argument in quotes.
fn quoted(arg: &OsStr) -> String {
    format!("`{}`", printable(&arg.to_string_lossy()))
}

#[cfg(test)]
mod tests {
    use super::*;

    fn parsed(line: &str) -> Result<Request, Misuse> {
        parse(line.split_whitespace().map(OsString::from).collect())
    }

    fn what(line: &str) -> String {
        parsed(line).unwrap_err().what
    }

    fn run_of(line: &str) -> Run {
        match parsed(line) {
            Ok(Request::Run(run)) => run,
            other => panic!("{other:?}"),
        }
    }

    #[test]
    fn options_stand_anywhere() {
        let run = run_of("run a.sheet --as=1,3 b.simp --budget 10 c.memory --write");
        assert_eq!(
            (run.sheet, run.script, run.memory),
            ("a.sheet".into(), "b.simp".into(), "c.memory".into())
        );
        assert_eq!((run.authority.as_str(), run.budget, run.write), ("1,3", 10, true));
        assert_eq!((run.names, run.form), (None, Form::Words));
        let run = run_of("run --json --budget=4294967295 --as 0 --names n a b c");
        assert_eq!((run.budget, run.form, run.names), (u32::MAX, Form::Json, Some("n".into())));
    }

    #[test]
    fn a_round_takes_what_a_run_takes() {
        let options = "a b c --as 0 --budget 7 --write --plain --names n";
        let run = run_of(&format!("run {options}"));
        let Ok(Request::Round(round)) = parsed(&format!("round {options}")) else {
            panic!("a round");
        };
        assert_eq!((run.command.name, round.command.name), ("run", "round"));
        assert_eq!(Run { command: run.command, ..round }, run);
    }

    #[test]
    fn nobody_is_an_empty_list() {
        assert_eq!(run_of("run --as= --budget=0 a b c").authority, "");
        let args = ["show", "a", "b", "--to", ""].map(OsString::from).to_vec();
        assert!(matches!(parse(args), Ok(Request::Show(show)) if show.group.is_empty()));
    }

    #[test]
    fn a_double_dash_ends_options() {
        let Ok(Request::Check(check)) = parsed("check --json -- --sheet --names -- -x") else {
            panic!("a check");
        };
        assert_eq!(check.sheet, "--sheet");
        assert_eq!(check.scripts, ["--names", "--", "-x"]);
    }

    fn readers_of(line: &str) -> Readers {
        match parsed(line) {
            Ok(Request::Readers(readers)) => readers,
            other => panic!("{other:?}"),
        }
    }

    #[test]
    fn a_label_may_stand_after_the_sheet() {
        assert_eq!(readers_of("readers a").label, None);
        let readers = readers_of("readers a --json 7 --names n");
        assert_eq!((readers.sheet, readers.label), ("a".into(), Some("7".into())));
        assert_eq!((readers.names, readers.form), (Some("n".into()), Form::Json));
        assert_eq!(readers_of("readers a -- --json").label, Some("--json".into()));
        // it is no file
        assert_eq!(readers_of("readers - -").label, Some("-".into()));
    }

    #[test]
    fn scripts_may_stand_after_the_sheet() {
        for (line, scripts) in [("explain a", None), ("explain a --json b", Some("b".into()))] {
            let Ok(Request::Explain(explain)) = parsed(line) else {
                panic!("{line}");
            };
            assert_eq!((explain.sheet, explain.scripts), ("a".into(), scripts));
        }
    }

    #[test]
    fn one_file_may_be_standard_input() {
        assert!(parsed("check - a b").is_ok());
        assert!(parsed("check a - b --names c").is_ok());
        for twice in [
            "check - -",
            "check a - - b",
            "check a - --names -",
            "explain - --names=-",
            "explain - -",
        ] {
            assert!(what(twice).contains("one file only"), "{twice}");
        }
        assert!(what("run a b - --as 0 --budget 1 --write").contains("--write"));
    }

    #[test]
    fn help_and_version() {
        for general in ["--help", "-h", "help", "help --help"] {
            assert_eq!(parsed(general), Ok(Request::Help(None)), "{general}");
        }
        for (line, name) in [("help run", "run"), ("show --help", "show"), ("check x -h", "check")]
        {
            let Ok(Request::Help(Some(command))) = parsed(line) else {
                panic!("{line}");
            };
            assert_eq!(command.name, name);
        }
        assert_eq!(parsed("--version"), Ok(Request::Version));
    }

    #[test]
    fn misuse_says_what_is_wrong() {
        for (line, says) in [
            ("", "a command is missing"),
            ("chek a b", "`chek` is no command"),
            ("help chek", "`chek` is no command"),
            ("--version x", "`x`"),
            ("check", "SHEET is missing"),
            ("check a", "SCRIPT is missing"),
            ("run a b --as 0 --budget 1", "MEMORY is missing"),
            ("round a", "SCRIPTS is missing"),
            ("round a b c --as 0", "--budget is missing"),
            ("round a b c d --as 0 --budget 1", "`d`"),
            ("run a b c d --as 0 --budget 1", "`d`"),
            ("run a b c --budget 1", "--as is missing"),
            ("run a b c --as 0", "--budget is missing"),
            ("run a b c --as", "the value of --as is missing"),
            ("run a b c --as --budget 1", "the value of --as is missing"),
            ("run a b c --as 0 --as 0 --budget 1", "--as stands twice"),
            ("run a b c --as 0 --budget 1 --write --write", "--write stands twice"),
            ("run a b c --as 0 --budget 1 --write=yes", "--write takes no value"),
            ("run a b c --as 0 --budget 4294967296", "--budget `4294967296`"),
            ("run a b c --as 0 --budget -1", "--budget `-1`"),
            ("run a b c --as 0 --budget 1 --json --plain", "give one"),
            ("check a b --write", "`--write` is no option of check"),
            ("check a b --jsn", "`--jsn` is no option of check"),
            ("check a b -x", "`-x`"),
            ("explain a --plain", "`--plain`"),
            ("explain a b c", "`c` is one file too many"),
            ("show a b", "--to is missing"),
            ("readers", "SHEET is missing"),
            ("readers a 0 1", "`1` is one argument too many"),
            ("readers a --plain", "`--plain`"),
        ] {
            assert!(what(line).contains(says), "{line}: {}", what(line));
        }
    }

    #[test]
    fn arguments_may_be_any_bytes() {
        let bytes = |bytes: &[u8]| OsString::from_vec(bytes.to_vec());
        let with = |extra: OsString| parse(vec!["check".into(), "a".into(), extra]);
        let Ok(Request::Check(check)) = with(bytes(b"\xff\n")) else {
            panic!("a check");
        };
        assert_eq!(check.scripts, [bytes(b"\xff\n")]);
        assert!(with(bytes(b"--\xff")).is_err());
        let list = vec!["show".into(), "a".into(), "b".into(), bytes(b"--to=\xff")];
        assert!(parse(list).unwrap_err().what.contains("isn't a list"));
        let label = vec!["readers".into(), "a".into(), bytes(b"\xff")];
        assert!(parse(label).unwrap_err().what.contains("isn't a name or a number"));
    }
}
