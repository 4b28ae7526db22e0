//! `nb replay`: asks the requests of session files and marks what differs.

use std::fs;
use std::io::Write;
use std::time::Duration;

use crate::arguments::Arguments;
use crate::command::Command;
use crate::files;
use crate::map;
use crate::outcome::{Failure, Verdict};
use crate::page::Page;
use crate::report::{about, verdict_text, write_played, Sum};
use crate::style::Style;
use compare::Simulator;
use session::play::{NoAnswer, Player};
use session::server::{Model, Proved, Server};
use session::text::Script;

pub const COMMAND: Command = Command {
    name: "replay",
    about: "asks the requests of session files, and marks what differs from what was expected",
    example: "nb replay --map sessions/fifteen-cases.session",
    help: HELP,
    run,
};

const HELP: &str = "\
nb replay [--map] [--brief] [--html PAGE] [--by proved|model | --against COMMAND [--wait SECONDS]]
          FILE...

Asks the requests of each session file in turn, prints each answer, and marks what differs from what
the file expects. Of a bad request (refusal 1) it also tells what is bad in it; the answer itself is 1
and no more. docs/SESSIONS.md describes the files. '-' reads the standard input.

    --map                draws what stands at the end: segments in address order, owners, lines of
                         derived entries, locks, gaps and overlaps
    --brief              one line for each file, and what differs
    --html PAGE          writes a page for a browser, one file that needs no other: what --map draws
                         after each request, and where a refused one stopped, with a slider over the
                         requests. PAGE ends in .html; one session FILE. PAGE#7 opens at request 7
    --by WHO             who answers: 'proved', the library (as long as nothing is said), or 'model',
                         the second implementation
    --against COMMAND    a simulator answers: a command for the shell that speaks the line protocol
                         of 'nb serve' on its standard input and output. An access or a load of more
                         bytes than a line of it holds, 69632, is not asked: it can only be refused
    --wait SECONDS       how long the command may take for an answer (10)

For example:

    nb replay --map sessions/fifteen-cases.session

    nb replay --brief --html fifteen.html sessions/fifteen-cases.session

    nb replay --brief --against './your-simulator' sessions/*.session

    echo 'memory 64 entries 2
    reset nonce 1
    lock root task 7   -> 0
    read root 1        -> 5' | nb replay -

The status is 0 if all is as expected, 1 if something differs, 2 if a file cannot be read, the page
cannot be written or the command cannot be started.
";

struct Options {
    map: bool,
    brief: bool,
    /// The file for the page.
    html: Option<String>,
    style: Style,
}

/// Who answers.
enum Who {
    Proved,
    Model,
    Command(String, Duration),
}

fn run(mut arguments: Arguments, out: &mut dyn Write) -> Result<Verdict, Failure> {
    let (map, brief) = (arguments.flag("--map"), arguments.flag("--brief"));
    let html = arguments.value("--html")?;
    let who = Who::read(&mut arguments)?;
    let files = arguments.rest()?;
    if files.is_empty() {
        return Err(Failure::Input("replay: expected a file, found nothing".to_string()));
    }
    check_page(html.as_deref(), files.len())?;
    // Every file is read first, so that a bad one is told before anything is asked.
    let scripts = files.iter().map(|file| files::read(file)).collect::<Result<Vec<_>, _>>()?;
    let scripts: Vec<(String, Script)> = files.into_iter().zip(scripts).collect();
    let options = Options { map, brief, html, style: Style::of_output() };
    replay_all(&scripts, who.server()?.as_mut(), &options, out)
}

/// A page is on one session, and its name is told from a session's, which it would overwrite.
fn check_page(page: Option<&str>, files: usize) -> Result<(), Failure> {
    let expected = match page {
        Some(page) if !page.ends_with(".html") => {
            format!("a page that ends in .html behind --html, found '{page}'")
        }
        Some(_) if files > 1 => format!("one file beside --html, found {files}"),
        _ => return Ok(()),
    };
    Err(Failure::Input(format!("replay: expected {expected}")))
}

fn write_page(page: &str, text: &str) -> Result<(), Failure> {
    fs::write(page, text).map_err(|error| {
        Failure::Input(format!(
            "replay: expected a file for the page, cannot write {page}: {error}"
        ))
    })
}

impl Who {
    fn read(arguments: &mut Arguments) -> Result<Who, Failure> {
        let (by, against) = (arguments.value("--by")?, arguments.value("--against")?);
        let wait = arguments.wait()?;
        let expected = match (by.as_deref(), against) {
            (None | Some("proved"), None) => return Ok(Who::Proved),
            (Some("model"), None) => return Ok(Who::Model),
            (None, Some(command)) => return Ok(Who::Command(command, wait)),
            (Some(by), None) => format!("'proved' or 'model' behind --by, found '{by}'"),
            (Some(_), Some(_)) => "--by or --against, found both".to_string(),
        };
        Err(Failure::Input(format!("replay: expected {expected}")))
    }

    fn server(self) -> Result<Box<dyn Server>, Failure> {
        match self {
            Who::Proved => Ok(Box::new(Proved)),
            Who::Model => Ok(Box::new(Model)),
            Who::Command(command, wait) => {
                let simulator = Simulator::start(&command, wait);
                Ok(Box::new(simulator.map_err(|why| Failure::Input(format!("replay: {why}")))?))
            }
        }
    }
}

fn replay_all(
    scripts: &[(String, Script)],
    server: &mut dyn Server,
    options: &Options,
    out: &mut dyn Write,
) -> Result<Verdict, Failure> {
    let mut sum = Sum::default();
    for (file, script) in scripts {
        sum.add(&replay(file, script, server, options, out)?);
    }
    if scripts.len() > 1 {
        writeln!(out, "{} files: {}", sum.files, verdict_text(&sum, options.style))?;
    }
    Ok(Verdict::agreed(sum.differing == 0))
}

fn replay(
    file: &str,
    script: &Script,
    server: &mut dyn Server,
    options: &Options,
    out: &mut dyn Write,
) -> Result<Sum, Failure> {
    if !options.brief {
        writeln!(out, "{file}{}", about(script))?;
    }
    let mut sum = Sum { files: 1, ..Sum::default() };
    let mut player = Player::new(script, server);
    let html = options.html.as_ref();
    let mut page = html.map(|_| Page::new(file, script, &player.world, &player.names));
    for (at, ask) in script.asks.iter().enumerate() {
        let played = player.play(ask);
        if let Some(page) = &mut page {
            page.add(ask, &played, &player.world, &player.names);
        }
        if !sum.count(ask, &played) || !options.brief {
            write_played(ask, &played, options.style, out)?;
        }
        // Without an answer nobody knows what stands.
        if let Err(NoAnswer::Trouble(_)) = played {
            sum.unasked += script.asks.len() - at - 1;
            break;
        }
    }
    let (lead, end) = if options.brief { (file, ": ") } else { ("", "") };
    writeln!(out, "{lead}{end}{}", verdict_text(&sum, options.style))?;
    if !options.brief {
        writeln!(out)?;
    }
    if options.map {
        writeln!(out, "{}", map::draw(&player.world, &player.names, options.style))?;
    }
    if let (Some(page), Some(html)) = (page, html) {
        write_page(html, &page.finish(&verdict_text(&sum, Style::PLAIN)))?;
        writeln!(out, "page written to {html}")?;
    }
    Ok(sum)
}
