//! Pages in a browser, if there is one: each opens without an error, and shows what the map says.

mod pages;

use std::io::{self, Write};
use std::path::PathBuf;
use std::process::Command;
use std::{env, fs};

use pages::{large, one_line, page, stored};

/// Shows every step in turn, and puts down the lines that are seen.
const EVERY_STEP: &str = r#"<script>
const seen = [];
for (let at = 0; at <= last; at++) {
  show(at);
  const lines = [...document.querySelectorAll(".said")].map((one) => one.innerText);
  seen.push(lines.map((line) => line.replace(/\s+/g, " ").trim()).join("\n"));
}
const list = document.createElement("pre");
list.id = "seen";
list.textContent = seen.join("\n\n");
document.body.append(list);
</script></body>"#;

/// Keys and the slider, as a user has them.
const KEYS: &str = r#"<script>
const keys = ["End", "ArrowLeft", "ArrowLeft", "ArrowRight"];
const press = () => {
  if (keys.length === 0) return;
  window.dispatchEvent(new KeyboardEvent("keydown", { key: keys.shift() }));
  setTimeout(press, 10);
};
setTimeout(press, 10);
</script></body>"#;

/// The browser's program; where there is none, that is told.
fn browser(test: &str) -> Option<PathBuf> {
    let path = env::var_os("PATH").unwrap_or_default();
    let found = env::split_paths(&path).map(|folder| folder.join("chromium"));
    let found = found.into_iter().find(|program| program.is_file());
    if found.is_none() {
        // Written past the test's capture, so that it is seen.
        let _ = writeln!(io::stderr(), "{test}: skipped, as there is no chromium on PATH");
    }
    found
}

/// What stands in the browser when a page is open at a fragment; no error was told.
fn opened(browser: &PathBuf, name: &str, page: &str, fragment: &str) -> String {
    let folder = env::temp_dir().join(format!("nb-browser-{name}-{}", std::process::id()));
    fs::create_dir_all(&folder).expect("a folder");
    let file = folder.join("page.html");
    fs::write(&file, page).expect("a page");
    let output = Command::new(browser)
        .args(["--headless", "--no-sandbox", "--disable-gpu", "--enable-logging=stderr"])
        .args(["--virtual-time-budget=5000", "--dump-dom"])
        .arg(format!("--user-data-dir={}", folder.join("user").display()))
        .arg(format!("file://{}{fragment}", file.display()))
        .output()
        .expect("the browser");
    let _ = fs::remove_dir_all(folder);
    let error = String::from_utf8_lossy(&output.stderr);
    assert!(!error.contains("CONSOLE"), "{name}: {error}");
    let text = String::from_utf8_lossy(&output.stdout).into_owned();
    assert!(text.contains("<p id=\"trouble\" hidden=\"\"></p>"), "{name}: {text:.2000}");
    text
}

/// Text without tags, each letter as itself.
fn plain(html: &str) -> String {
    let parts = html.split('<').enumerate();
    let texts = parts.map(|(at, part)| match (at, part.split_once('>')) {
        (0, _) | (_, None) => part,
        (_, Some((_, text))) => text,
    });
    let text: String = texts.collect();
    text.replace("&lt;", "<").replace("&gt;", ">").replace("&nbsp;", " ").replace("&amp;", "&")
}

/// The map's lines of a page as it stands.
fn said(dom: &str) -> Vec<String> {
    let lines = dom.split("<p class=\"said").skip(1);
    let lines = lines.filter_map(|rest| rest.split_once("</p>")?.0.split_once('>'));
    lines.map(|(_, line)| one_line(&plain(line))).collect()
}

#[test]
fn every_step_shows_what_the_map_says() {
    let Some(browser) = browser("every_step_shows_what_the_map_says") else { return };
    let names = [
        "fifteen-cases",
        "locks-through-derived",
        "handed-ill-formed",
        "handed-bad-ancestors",
        "handed-overlapping",
        "page-round-trip",
        "paged-parent",
        "deep-line",
        "sizes-most-entries",
        "sizes-no-memory",
    ];
    let mut texts: Vec<(&str, String)> =
        names.map(|name| (name, stored(&format!("{name}.session")))).into();
    texts.push(("large", large()));
    texts.push(("none", "memory 64 entries 2\n".to_string()));
    for (name, text) in texts {
        let (page, maps) = page(name, &text);
        let dom = opened(&browser, name, &page.replace("</body>", EVERY_STEP), "");
        let (_, seen) = dom.split_once("<pre id=\"seen\">").expect("the steps");
        let seen = plain(seen.split_once("</pre>").expect("their end").0);
        let wanted: Vec<String> = maps.iter().map(|map| map.join("\n")).collect();
        assert_eq!(seen, wanted.join("\n\n"), "{name}");
    }
}

#[test]
fn the_address_tells_the_step() {
    let Some(browser) = browser("the_address_tells_the_step") else { return };
    let (page, maps) = page("fifteen-cases", &stored("fifteen-cases.session"));
    for (fragment, step) in [("", 0), ("#7", 7), ("#99", 16), ("#x", 0)] {
        let dom = opened(&browser, "address", &page, fragment);
        assert!(dom.contains(&format!("<body data-step=\"{step}\">")), "{fragment}");
        assert_eq!(said(&dom), maps[step], "{fragment}");
    }
    let dom = opened(&browser, "address", &page, "#5");
    let told = plain(dom.split_once("<div id=\"request\"").expect("the request").1);
    assert!(told.contains("read root+65525 12"), "{told:.200}");
    assert!(told.contains("8 out of bounds") && told.contains("stopped at #0 root"), "{told:.200}");
}

#[test]
fn keys_move_it() {
    let Some(browser) = browser("keys_move_it") else { return };
    let (page, maps) = page("fifteen-cases", &stored("fifteen-cases.session"));
    let dom = opened(&browser, "keys", &page.replace("</body>", KEYS), "#3");
    assert!(dom.contains("<body data-step=\"15\">"));
    assert_eq!(said(&dom), maps[15]);
}
