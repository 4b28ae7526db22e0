//! The page itself: one file that needs no other.

use super::json::Json;
use super::step::{map_fields, request_fields};
use crate::map::{Map, Row};
use crate::report::about;
use bridge::{refusal_words, Check};
use session::play::{NoAnswer, Played};
use session::text::{Ask, Names, Script};
use session::World;

const TEMPLATE: &str = include_str!("../../page/page.html");
const STYLE: &str = include_str!("../../page/page.css");
const CODE: &str = include_str!("../../page/page.js");

/// A page that is being written: the start, and a step for each request.
pub struct Page {
    file: String,
    about: String,
    steps: Vec<Json>,
    /// Those of the last step.
    rows: Vec<Row>,
}

impl Page {
    pub fn new(file: &str, script: &Script, world: &World, names: &Names) -> Page {
        let about = about(script).trim_start_matches(": ").to_string();
        let mut page = Page { file: file.to_string(), about, steps: vec![], rows: vec![] };
        page.push(vec![], world, names);
        page
    }

    /// Adds a request, and what stands after it.
    pub fn add(
        &mut self,
        ask: &Ask,
        played: &Result<Played, NoAnswer>,
        world: &World,
        names: &Names,
    ) {
        self.push(request_fields(ask, played), world, names);
    }

    fn push(&mut self, mut fields: Vec<(&'static str, Json)>, world: &World, names: &Names) {
        let map = Map::of(world, names);
        fields.extend(map_fields(&self.rows, &map));
        self.steps.push(Json::Fields(fields));
        self.rows = map.rows;
    }

    /// The page's text.
    pub fn finish(self, verdict: &str) -> String {
        let check = |check: Check| {
            let number = check as u64;
            Json::List(vec![Json::Number(number), Json::text(refusal_words(number))])
        };
        let title = escaped(&self.file);
        let session = Json::Fields(vec![
            ("file", Json::Text(self.file)),
            ("about", Json::Text(self.about)),
            ("verdict", Json::text(verdict)),
            ("checks", Json::list(Check::all(), check)),
            ("steps", Json::List(self.steps)),
        ]);
        let session = session.to_string();
        let parts = [
            ("{title}", title.as_str()),
            ("{style}", STYLE),
            ("{session}", &session),
            ("{code}", CODE),
        ];
        filled(TEMPLATE, &parts)
    }
}

/// A template with each part at its mark; the marks come in this order, and what is put in is not
/// looked at again.
fn filled(template: &str, parts: &[(&str, &str)]) -> String {
    let (mut text, mut rest) = (String::new(), template);
    for (mark, part) in parts {
        let (before, behind) = rest.split_once(mark).expect("a mark of the template");
        text.push_str(before);
        text.push_str(part);
        rest = behind;
    }
    text + rest
}

/// As text of a page.
fn escaped(text: &str) -> String {
    text.replace('&', "&amp;").replace('<', "&lt;").replace('>', "&gt;")
}
