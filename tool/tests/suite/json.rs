//! `--json`: one document, well-formed, with what the words say.

use crate::desk::{desk, tabbed};
use crate::tool::{command, simp, Ran};
use std::ffi::OsStr;
use std::os::unix::ffi::OsStrExt;

/// A document that was read.
#[derive(Clone, Debug, PartialEq)]
pub enum Json {
    Null,
    Bool(bool),
    Number(u64),
    Text(String),
    List(Vec<Json>),
    Object(Vec<(String, Json)>),
}

impl Json {
    /// Reads a document with nothing after it but an end of line.
    pub fn read(text: &str) -> Json {
        let mut reader = Reader { rest: text.strip_suffix('\n').expect("the last line ends") };
        let json = reader.value();
        assert_eq!(reader.rest, "", "after the document");
        json
    }

    /// A field of an object, which has it once.
    pub fn at(&self, name: &str) -> &Json {
        let Json::Object(fields) = self else {
            panic!("{self:?} is no object");
        };
        let mut found = fields.iter().filter(|(field, _)| field == name);
        let (_, value) = found.next().unwrap_or_else(|| panic!("no {name} in {self:?}"));
        assert!(found.next().is_none(), "{name} twice in {self:?}");
        value
    }

    fn items(&self) -> &[Json] {
        match self {
            Json::List(items) => items,
            other => panic!("{other:?} is no list"),
        }
    }

    fn is_text(&self) -> bool {
        matches!(self, Json::Text(text) if !text.is_empty())
    }
}

struct Reader<'a> {
    rest: &'a str,
}

impl Reader<'_> {
    fn next(&mut self) -> char {
        let c = self.rest.chars().next().expect("the document goes on");
        self.rest = &self.rest[c.len_utf8()..];
        c
    }

    fn takes(&mut self, start: &str) -> bool {
        let rest = self.rest.strip_prefix(start);
        self.rest = rest.unwrap_or(self.rest);
        rest.is_some()
    }

    fn value(&mut self) -> Json {
        if self.takes("null") {
            Json::Null
        } else if self.takes("true") {
            Json::Bool(true)
        } else if self.takes("false") {
            Json::Bool(false)
        } else if self.takes("\"") {
            Json::Text(self.text())
        } else if self.takes("[") {
            Json::List(self.parts("]", Reader::value))
        } else if self.takes("{") {
            Json::Object(self.parts("}", Reader::field))
        } else {
            self.number()
        }
    }

    fn number(&mut self) -> Json {
        let end = self.rest.find(|c: char| !c.is_ascii_digit()).unwrap_or(self.rest.len());
        let (digits, rest) = self.rest.split_at(end);
        assert!(digits.len() == 1 || !digits.starts_with('0'), "{}", self.rest);
        self.rest = rest;
        Json::Number(digits.parse().expect("a number"))
    }

    fn field(&mut self) -> (String, Json) {
        assert!(self.takes("\""), "{}", self.rest);
        let name = self.text();
        assert!(self.takes(":"), "{}", self.rest);
        (name, self.value())
    }

    fn parts<T>(&mut self, end: &str, part: fn(&mut Self) -> T) -> Vec<T> {
        let mut parts = Vec::new();
        if self.takes(end) {
            return parts;
        }
        loop {
            parts.push(part(self));
            if self.takes(end) {
                return parts;
            }
            assert!(self.takes(","), "{}", self.rest);
        }
    }

    fn text(&mut self) -> String {
        let mut text = String::new();
        loop {
            match self.next() {
                '"' => return text,
                '\\' => text.push(self.escaped()),
                c => {
                    assert!(!c.is_control(), "{c:?} isn't escaped");
                    text.push(c);
                }
            }
        }
    }

    fn escaped(&mut self) -> char {
        match self.next() {
            'n' => '\n',
            'r' => '\r',
            't' => '\t',
            'u' => {
                let digits: String = (0..4).map(|_| self.next()).collect();
                let code = u32::from_str_radix(&digits, 16).expect("four digits");
                char::from_u32(code).expect("a character")
            }
            c => {
                assert!("\"\\/".contains(c), "\\{c}");
                c
            }
        }
    }
}

fn document(ran: &Ran, status: i32) -> Json {
    assert_eq!(ran.status, status, "{}{}", ran.out, ran.err);
    assert!(!ran.out.contains('\x1b'));
    Json::read(&ran.out)
}

/// That the parts of a message are there, with this line.
fn told(json: &Json, blamed: &str, line: Option<u64>) {
    assert_eq!(json.at("blamed"), &Json::Text(blamed.to_string()));
    assert_eq!(json.at("line"), &line.map_or(Json::Null, Json::Number));
    for part in ["fact", "advice", "rule"] {
        assert!(json.at(part).is_text(), "{json:?}");
    }
}

fn numbers(numbers: &[u64]) -> Json {
    Json::List(numbers.iter().copied().map(Json::Number).collect())
}

#[test]
fn checks() {
    let folder = desk("json-checks");
    let arguments = ["check", "--json", "a.sheet", "copy.simp", "leak.simp", "no.simp"];
    let json = document(&simp(&folder, &arguments), 3);
    assert_eq!(json.at("sheet").at("accepted"), &Json::Bool(true));
    let sums = ["accepted", "refused", "unread", "keeping"].map(|sum| json.at(sum).clone());
    assert_eq!(sums, [1, 1, 1, 1].map(Json::Number));
    let [copy, leak, missing] = json.at("scripts").items() else {
        panic!("three scripts");
    };
    assert_eq!(copy.at("name"), &Json::Text("copy.simp".to_string()));
    assert_eq!((copy.at("answer"), copy.at("accepted")), (&Json::Number(0), &Json::Bool(true)));
    assert_eq!((leak.at("answer"), leak.at("accepted")), (&Json::Number(6), &Json::Bool(false)));
    told(leak, "script", Some(1));
    assert_eq!((missing.at("answer"), missing.at("error").is_text()), (&Json::Null, true));
    assert_eq!(
        [copy, leak, missing].map(|script| script.at("keeping") == &Json::Bool(true)),
        [true, false, false]
    );
    assert_eq!(copy.at("unpacks").items(), []);
    folder.write("a.sheet", b"P\t0\n");
    let json = document(&simp(&folder, &arguments), 1);
    assert_eq!(json.at("scripts").items(), []);
    assert_eq!(json.at("sheet").at("answer"), &Json::Number(1));
    told(json.at("sheet"), "sheet", Some(1));
    let json = document(&simp(&folder, &["check", "no.sheet", "copy.simp", "--json"]), 3);
    assert!(json.at("sheet").at("error").is_text());
}

#[test]
fn runs() {
    let folder = desk("json-runs");
    let run = |script: &str, status, more: &[&str]| {
        let arguments = ["run", "a.sheet", script, "a.memory", "--as=1", "--budget=9", "--json"];
        document(&simp(&folder, &[&arguments[..], more].concat()), status)
    };
    let before = [&[1, 5][..], &[1, 62], &[4, 2, 1], &[4, 2, 1]];
    let after = [before[0], before[1], &[3, 5, 2, 1, 62], before[3]];
    let memory = |words: [&[u64]; 4]| Json::List(words.map(numbers).to_vec());
    for (more, written) in [(&[][..], false), (&["--write"], true)] {
        let json = run("pack.simp", 0, more);
        assert_eq!((json.at("answer"), json.at("done")), (&Json::Number(0), &Json::Bool(true)));
        assert_eq!((json.at("steps"), json.at("changed")), (&Json::Number(1), &numbers(&[2])));
        assert_eq!(json.at("memory"), &memory(after));
        assert_eq!(json.at("written"), &Json::Bool(written));
    }
    let json = run("loop.simp", 1, &[]);
    assert_eq!((json.at("answer"), json.at("steps")), (&Json::Number(9), &Json::Number(9)));
    assert_eq!((json.at("memory"), json.at("changed")), (&memory(after), &numbers(&[])));
    assert_eq!(json.at("name"), &Json::Text("loop.simp".to_string()));
    told(&json, "script", Some(1));
    assert_eq!(json.at("written"), &Json::Bool(false));
    folder.write("a.memory", b"1\n");
    let json = run("pack.simp", 1, &["--write"]);
    assert_eq!((json.at("answer"), json.at("memory")), (&Json::Number(8), &Json::Null));
    told(&json, "memory", Some(1));
}

/// The scripts of a round, each with its number from 1 and its first line in the file.
#[test]
fn rounds() {
    let folder = desk("json-rounds");
    let round = |scripts: &str, status, more: &[&str]| {
        let arguments =
            ["round", "a.sheet", scripts, "a.memory", "--as=1", "--budget=20", "--json"];
        document(&simp(&folder, &[&arguments[..], more].concat()), status)
    };
    for (more, written) in [(&[][..], false), (&["--write"], true)] {
        let json = round("pack.round", 0, more);
        assert_eq!((json.at("answer"), json.at("done")), (&Json::Number(0), &Json::Bool(true)));
        let ends = json.at("scripts").items();
        let fields = ["script", "first_line", "answer", "steps"];
        let ends: Vec<_> =
            ends.iter().map(|end| fields.map(|field| end.at(field).clone())).collect();
        assert_eq!(ends, [[1, 1, 0, 0], [2, 3, 0, 1]].map(|end| end.map(Json::Number)));
        assert_eq!((json.at("changed"), json.at("compared")), (&numbers(&[2]), &Json::Bool(true)));
        assert_eq!(json.at("memory").items()[2], numbers(&[3, 5, 2, 1, 62]));
        assert_eq!(json.at("written"), &Json::Bool(written));
        folder.write("a.memory", &tabbed(crate::desk::MEMORY));
    }
    let json = round("stops.round", 1, &["--write"]);
    assert_eq!((json.at("answer"), json.at("done")), (&Json::Number(0), &Json::Bool(false)));
    assert_eq!((json.at("changed"), json.at("written")), (&numbers(&[2]), &Json::Bool(true)));
    let [spent, packed, grown] = json.at("scripts").items() else {
        panic!("three scripts");
    };
    assert_eq!((spent.at("answer"), spent.at("steps")), (&Json::Number(9), &Json::Number(20)));
    told(spent, "script", Some(1));
    assert_eq!((packed.at("answer"), packed.at("done")), (&Json::Number(0), &Json::Bool(true)));
    assert_eq!((grown.at("answer"), grown.at("done")), (&Json::Number(10), &Json::Bool(false)));
    assert_eq!(grown.at("first_line"), &Json::Number(10));
    told(grown, "script", Some(14));
}

#[test]
fn refused_rounds() {
    let folder = desk("json-refused-rounds");
    folder.write("leak.round", &tabbed("s\n\n= 0\nx 1\n"));
    folder.write("many.round", &tabbed(&vec!["s\n"; 33].join("\n")));
    let round = |scripts: &str, authority: &str| {
        let arguments = ["round", "a.sheet", scripts, "a.memory", "--budget=9", "--json"];
        let more = ["--write", "--as", authority];
        document(&simp(&folder, &[&arguments[..], &more].concat()), 1)
    };
    for (scripts, authority, answer, blamed, script, line) in [
        ("leak.round", "1", 6, "script", Some(2), Some(3)),
        ("many.round", "1", 11, "script", None, Some(65)),
        ("leak.round", "3", 3, "argument", None, None),
    ] {
        let json = round(scripts, authority);
        assert_eq!(
            (json.at("answer"), json.at("done")),
            (&Json::Number(answer), &Json::Bool(false))
        );
        assert_eq!((json.at("scripts").items(), json.at("changed")), (&[][..], &numbers(&[])));
        assert_eq!(json.at("script"), &script.map_or(Json::Null, Json::Number));
        assert_eq!(json.at("written"), &Json::Bool(false));
        assert!(json.at("name").is_text() && json.at("memory").items().len() == 4);
        told(&json, blamed, line);
    }
    folder.write("a.memory", b"1\n");
    let json = round("pack.round", "1");
    assert_eq!((json.at("answer"), json.at("memory")), (&Json::Number(8), &Json::Null));
    told(&json, "memory", Some(1));
}

#[test]
fn a_memory_that_cannot_be_written() {
    let folder = desk("json-unwritten");
    let name = "m".repeat(255);
    folder.write(&name, &tabbed(crate::desk::MEMORY));
    for (command, script) in [("run", "pack.simp"), ("round", "pack.round")] {
        let arguments = [command, "a.sheet", script, &name, "--as=1", "--budget=9", "--json"];
        let json = document(&simp(&folder, &[&arguments[..], &["--write"]].concat()), 3);
        assert_eq!((json.at("done"), json.at("written")), (&Json::Bool(true), &Json::Bool(false)));
        assert!(json.at("error").is_text());
    }
}

#[test]
fn views() {
    let folder = desk("json-views");
    folder.write("a.memory", &tabbed(crate::desk::PACKED));
    folder.write("a.names", b"X\t0\ttray\n");
    let show = ["show", "a.sheet", "a.memory", "--json", "--names", "a.names", "--to"];
    let json = document(&simp(&folder, &[&show[..], &["1,2"]].concat()), 0);
    assert_eq!((json.at("shown"), json.at("group")), (&Json::Bool(true), &numbers(&[1, 2])));
    let [tray, hidden, package, _] = json.at("locations").items() else {
        panic!("four locations");
    };
    assert_eq!(tray.at("name"), &Json::Text("tray".to_string()));
    assert_eq!((tray.at("words"), tray.at("hidden")), (&numbers(&[1, 5]), &Json::Bool(false)));
    assert_eq!((hidden.at("words"), hidden.at("hidden")), (&numbers(&[]), &Json::Bool(true)));
    assert_eq!((hidden.at("name"), hidden.at("value")), (&Json::Null, &Json::Null));
    assert_eq!(package.at("words"), &numbers(&[3, 5, 2]));
    assert_eq!(package.at("content_hidden"), &Json::Bool(true));
    let json = document(&simp(&folder, &[&show[..], &["3"]].concat()), 1);
    assert_eq!((json.at("answer"), json.at("shown")), (&Json::Number(3), &Json::Bool(false)));
    assert_eq!(json.at("name"), &Json::Text("--to".to_string()));
    told(&json, "argument", None);
}

#[test]
fn readers() {
    let folder = desk("json-readers");
    folder.write("a.names", b"L\t2\tfarm only\n");
    let readers = |status, more: &[&str]| {
        let arguments = ["readers", "a.sheet", "--json", "--names", "a.names"];
        document(&simp(&folder, &[&arguments[..], more].concat()), status)
    };
    let list = |label: u64, name: Json, groups: &[&[u64]]| {
        let groups: Vec<Json> = groups.iter().copied().map(numbers).collect();
        let count = Json::Number(groups.len() as u64);
        let values = [Json::Number(label), name, count, Json::List(groups)];
        let fields = ["label", "name", "count", "groups"].map(str::to_string);
        Json::Object(fields.into_iter().zip(values).collect())
    };
    let last = list(2, Json::Text("farm only".to_string()), &[&[0]]);
    let open = list(0, Json::Null, &[&[0], &[1], &[2]]);
    let all = [open, list(1, Json::Null, &[&[0]]), last.clone()];
    for (more, lists) in [(&[][..], &all[..]), (&["farm only"], &[last])] {
        let json = readers(0, more);
        assert_eq!((json.at("answer"), json.at("listed")), (&Json::Number(0), &Json::Bool(true)));
        assert_eq!(json.at("labels").items(), lists);
    }
    let json = readers(1, &["3"]);
    assert_eq!((json.at("answer"), json.at("listed")), (&Json::Number(12), &Json::Bool(false)));
    assert_eq!(json.at("name"), &Json::Text("LABEL".to_string()));
    told(&json, "argument", None);
    folder.write("a.names", b"");
    folder.write("a.sheet", b"P\t1\n");
    assert_eq!(readers(0, &[]).at("labels").items(), []);
    told(&readers(1, &["0"]), "sheet", None);
    folder.write("a.sheet", b"P\t1\nL\nL\n");
    let json = readers(1, &["9"]);
    assert_eq!((json.at("answer"), json.at("listed")), (&Json::Number(2), &Json::Bool(false)));
    assert_eq!(json.at("name"), &Json::Text("a.sheet".to_string()));
    told(&json, "sheet", Some(3));
}

#[test]
fn explanations() {
    let folder = desk("json-explanations");
    let json = document(&simp(&folder, &["explain", "a.sheet", "--json"]), 0);
    let counts =
        ["principals", "types", "labels", "locations"].map(|what| json.at(what).items().len());
    assert_eq!(counts, [3, 6, 3, 4]);
    assert_eq!(json.at("types").items()[5].at("parts"), &numbers(&[0, 1]));
    let owner = &json.at("labels").items()[1].at("owners").items()[0];
    assert_eq!((owner.at("readers"), owner.at("writers")), (&numbers(&[0]), &numbers(&[0])));
    let location = &json.at("locations").items()[3];
    assert_eq!((location.at("type"), location.at("label")), (&Json::Number(5), &Json::Number(2)));
    assert!(location.at("read").is_text() && location.at("write").is_text());
    folder.write("a.sheet", b"P\t1\nL\nL\n");
    let json = document(&simp(&folder, &["explain", "a.sheet", "--json"]), 1);
    assert_eq!(json.at("sheet").at("answer"), &Json::Number(2));
    told(json.at("sheet"), "sheet", Some(3));
}

/// A command that can't go on has a document too.
#[test]
fn what_cannot_be_read() {
    let folder = desk("json-unread");
    let calls: [&[&str]; 7] = [
        &["run", "a.sheet", "no.simp", "a.memory", "--as=0", "--budget=1", "--json"],
        &["round", "a.sheet", "no.round", "a.memory", "--as=0", "--budget=1", "--json"],
        &["show", "no.sheet", "a.memory", "--to=0", "--json"],
        &["readers", "no.sheet", "0", "--json"],
        &["explain", "no.sheet", "--json"],
        &["explain", "a.sheet", "no.simp", "--json"],
        &["check", "a.sheet", "copy.simp", "--names=no.names", "--json"],
    ];
    for arguments in calls {
        let ran = simp(&folder, arguments);
        let json = document(&ran, 3);
        assert_eq!(json.at("answer"), &Json::Null, "{arguments:?}");
        let Json::Text(error) = json.at("error") else { panic!("{arguments:?}") };
        assert_eq!(format!("{error}\n"), ran.err);
    }
}

#[test]
fn names_of_files_are_escaped() {
    let folder = desk("json-bytes");
    let name = OsStr::from_bytes(b"a\"\\\n\x1b\xff");
    let mut tool = command(&folder, &["check", "--json", "a.sheet"]);
    let ran: Ran = tool.arg(name).output().expect("the tool starts").into();
    let json = document(&ran, 3);
    let script = &json.at("scripts").items()[0];
    assert_eq!(script.at("name"), &Json::Text("a\"\\\n\x1b\u{fffd}".to_string()));
}
