//! The page of a session: its data is what the map says, and it needs nothing else.

mod pages;

use std::collections::BTreeMap;
use std::path::PathBuf;
use std::process::{Command, Output};
use std::{env, fs};

use pages::{large, one_line, page, sessions, stored};

/// Data as it is read back.
#[derive(Debug, PartialEq)]
enum Value {
    Nothing,
    Number(u64),
    Text(String),
    List(Vec<Value>),
    Fields(BTreeMap<String, Value>),
}

impl Value {
    fn at(&self, name: &str) -> &Value {
        match self {
            Value::Fields(fields) => fields.get(name).unwrap_or(&Value::Nothing),
            other => panic!("{name} of {other:?}"),
        }
    }

    fn list(&self) -> &[Value] {
        match self {
            Value::List(values) => values,
            other => panic!("no list: {other:?}"),
        }
    }

    fn number(&self) -> usize {
        match self {
            Value::Number(number) => *number as usize,
            other => panic!("no number: {other:?}"),
        }
    }

    fn text(&self) -> Option<&str> {
        match self {
            Value::Text(text) => Some(text),
            _ => None,
        }
    }
}

/// Reads data, from the first letter on.
struct Reader<'a>(&'a str);

impl Reader<'_> {
    fn take(&mut self, mark: &str) -> bool {
        let rest = self.0.strip_prefix(mark);
        self.0 = rest.unwrap_or(self.0);
        rest.is_some()
    }

    fn value(&mut self) -> Value {
        if self.take("null") {
            return Value::Nothing;
        }
        if self.take("[") {
            return Value::List(self.until("]", Reader::value));
        }
        if self.take("{") {
            return Value::Fields(self.until("}", Reader::field).into_iter().collect());
        }
        if self.take("\"") {
            return Value::Text(self.text());
        }
        let end = self.0.find(|letter: char| !letter.is_ascii_digit()).unwrap_or(self.0.len());
        let (number, rest) = self.0.split_at(end);
        self.0 = rest;
        Value::Number(number.parse().expect("a number"))
    }

    fn until<T>(&mut self, end: &str, one: impl Fn(&mut Self) -> T) -> Vec<T> {
        let mut values = Vec::new();
        while !self.take(end) {
            assert!(values.is_empty() || self.take(","), "a comma before {:.20}", self.0);
            values.push(one(self));
        }
        values
    }

    fn field(&mut self) -> (String, Value) {
        assert!(self.take("\""), "a name");
        let name = self.text();
        assert!(self.take(":"), "a colon");
        (name, self.value())
    }

    fn text(&mut self) -> String {
        let mut text = String::new();
        loop {
            let end = self.0.find(['"', '\\']).expect("the end of a text");
            text.push_str(&self.0[..end]);
            self.0 = &self.0[end..];
            if self.take("\"") {
                return text;
            }
            assert!(self.take("\\u"), "a letter by its number");
            let (digits, rest) = self.0.split_at(4);
            let number = u32::from_str_radix(digits, 16).expect("four digits");
            text.push(char::from_u32(number).expect("a letter"));
            self.0 = rest;
        }
    }
}

/// The data of a page.
fn data(page: &str) -> Value {
    let (_, rest) = page.split_once("id=\"session\">").expect("the data");
    let (data, _) = rest.split_once("</script>").expect("its end");
    let mut reader = Reader(data);
    let value = reader.value();
    assert_eq!(reader.0, "", "nothing stands behind the data");
    value
}

/// What the data says at each step, as the page's script puts it together.
fn told(session: &Value) -> Vec<Vec<String>> {
    let (mut rows, mut told): (Vec<&Value>, _) = (Vec::new(), Vec::new());
    for step in session.at("steps").list() {
        let back = rows.len() - step.at("back").number();
        let changed: Vec<&Value> = step.at("rows").list().iter().collect();
        rows = [&rows[..step.at("front").number()], &changed, &rows[back..]].concat();
        let head = step.at("head").list().iter().filter_map(Value::text).map(one_line);
        told.push(head.chain(lines(&rows)).collect());
    }
    told
}

fn lines(rows: &[&Value]) -> Vec<String> {
    let (mut lines, mut last) = (Vec::new(), "");
    for row in rows {
        let [kind, lead, title, words] =
            ["kind", "lead", "title", "words"].map(|name| row.at(name).text().expect(name));
        let [wrong, lock] = ["wrong", "lock"].map(|name| row.at(name).text().unwrap_or(""));
        let apart =
            ["paged out", "dead", "under an ill-formed entry", "ill-formed"].contains(&kind);
        let address = row.at("reach").list()[0].number();
        let rule = format!("0x{address:08x} {lead} {title}");
        lines.extend(match kind {
            _ if apart && kind != last => vec![kind.to_string(), format!("{title}: {words}")],
            "derived" => vec![format!("{title}: {words}")],
            _ if apart => vec![format!("{title}: {words}")],
            _ => vec![rule],
        });
        let plain = if apart || kind == "derived" { "" } else { words };
        lines.extend([wrong, plain, lock].map(str::to_string));
        last = kind;
    }
    lines.iter().map(|line| one_line(line)).filter(|line| !line.is_empty()).collect()
}

#[test]
fn its_data_is_what_the_map_says_at_every_step_of_every_stored_session() {
    let files = fs::read_dir(sessions()).expect("the stored sessions");
    let names: Vec<String> = files
        .map(|file| file.expect("a file").file_name().to_string_lossy().into_owned())
        .collect();
    assert!(names.len() >= 64);
    for name in names {
        let (page, maps) = page(&name, &stored(&name));
        assert_eq!(told(&data(&page)), maps, "{name}");
    }
}

#[test]
fn tables_that_are_large_or_empty_and_sessions_without_a_request() {
    for text in [&large(), "memory 64 entries 2\n", "memory 0 table 0\n", "memory 7 table 31\n"] {
        let (page, maps) = page("any", text);
        assert_eq!(told(&data(&page)), maps, "{text:.60}");
    }
}

#[test]
fn a_refused_request_tells_where_it_stopped() {
    let text = "memory 64 entries 4\nreset nonce 1 -> 0\nlock root task 7\nread root 1 task 8\n\
                read @3:5 1\nlock root task 0\nread gone 1\n";
    let text =
        text.replace("read gone", "derive root length 99 permissions R -> 0 as gone\nread gone");
    let (page, _) = page("stops", &text);
    let data = data(&page);
    let steps = data.at("steps").list();
    let holds = |step: usize, answer: &str, number: usize, why: Option<&str>| {
        let step = &steps[step];
        assert_eq!(step.at("answer").text(), Some(answer));
        assert_eq!(step.at("stop").at("number").number(), number);
        assert_eq!(step.at("stop").at("why").text(), why);
    };
    holds(3, "5 locked for another task", 0, Some("it is locked for task 7"));
    holds(4, "2 no such entry", 3, Some("it is free"));
    assert_eq!(steps[5].at("stop"), &Value::Nothing);
    assert_eq!(
        steps[5].at("answer").text(),
        Some("1 bad request: the task is 0, which means none")
    );
    assert_eq!(steps[6].at("stop").at("number").number(), 0);
    assert_eq!(steps[6].at("differences").list().len(), 1);
    assert_eq!(steps[7].at("answer").text(), Some("not asked: nobody gave 'gone'"));
    assert_eq!(steps[7].at("refusal"), &Value::Nothing);
}

#[test]
fn it_needs_nothing_else_and_no_text_of_a_session_becomes_markup() {
    let text = "# </script><b> & \"'\\ {code}\nmemory 64 entries 2\nreset nonce 1 # <i>\n";
    let (page, _) = page("<u>&.session", text);
    let about = "</script><b> & \"'\\ {code}";
    assert_eq!(data(&page).at("about").text(), Some(about));
    assert!(page.contains("<title>&lt;u&gt;&amp;.session</title>"));
    for foreign in ["<b>", "<i>", "<u>"] {
        assert!(!page.contains(foreign), "{foreign}");
    }
    for mark in ["{title}", "{style}", "{session}"] {
        assert!(!page.contains(mark), "{mark}");
    }
    for outside in ["//www", "http:", "https:", "src=", "url(", "@import", "import(", "fetch("] {
        assert!(!page.contains(outside), "{outside}");
    }
    assert!(page.contains("default-src 'none'"), "the browser loads nothing for it");
    assert_eq!(page.matches("</script>").count(), 2);
    assert_eq!(page.matches("</html>").count(), 1);
}

fn nb(words: &[&str]) -> Output {
    Command::new(env!("CARGO_BIN_EXE_nb")).args(words).output().expect("the tool")
}

fn folder(test: &str) -> PathBuf {
    let folder = env::temp_dir().join(format!("nb-page-{test}-{}", std::process::id()));
    fs::create_dir_all(&folder).expect("a folder");
    folder
}

#[test]
fn the_tool_writes_it() {
    let folder = folder("written");
    let file = folder.join("revoke.html").to_string_lossy().into_owned();
    let session = sessions().join("revoke.session").to_string_lossy().into_owned();
    let output = nb(&["replay", "--brief", "--html", &file, &session]);
    let told = String::from_utf8_lossy(&output.stdout);
    assert_eq!(output.status.code(), Some(0), "{told}");
    assert!(told.contains("all as expected") && told.contains("page written to"), "{told}");
    let written = fs::read_to_string(&file).expect("the page");
    let verdict = data(&written).at("verdict").text().map(str::to_string);
    assert!(verdict.is_some_and(|verdict| verdict.ends_with("all as expected")));
    let _ = fs::remove_dir_all(folder);
}

#[test]
fn bad_words_are_status_2_and_nothing_is_written() {
    let folder = folder("bad");
    let name = |name: &str| folder.join(name).to_string_lossy().into_owned();
    let (own, page, nowhere) = (name("a.session"), name("a.html"), name("no/a.html"));
    let text = "memory 64 entries 2\n";
    fs::write(&own, text).expect("a session");
    let holds = |words: &[&str], told: &str| {
        let output = nb(&[&["replay"], words].concat());
        let error = String::from_utf8_lossy(&output.stderr).into_owned();
        assert_eq!(output.status.code(), Some(2), "{words:?}");
        assert!(error.contains("expected") && error.contains(told), "{words:?}: {error}");
    };
    holds(&["--html"], "a value behind --html");
    holds(&["--html", &own], "a file");
    holds(&["--html", &own, &own], "ends in .html");
    holds(&["--html", &page, &own, &own], "one file beside --html, found 2");
    holds(&["--html", &nowhere, &own], "a file for the page");
    assert_eq!(fs::read_to_string(&own).expect("the session"), text);
    assert!(!folder.join("a.html").exists());
    let _ = fs::remove_dir_all(folder);
}
