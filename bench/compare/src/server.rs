//! The proved code behind the line protocol.

use std::io::{self, BufRead, Write};

use bridge::{Lent, Words};
use session::World;

use crate::line::{self, Read};
use crate::protocol::{self, Line, Name, GREETING, LINE};

/// Answers each line of the input with one line on the output, until the input ends. A line that
/// cannot be read is answered by an error line that says what was expected; one that is too long is
/// answered before its end, and the rest of it passed over.
pub fn serve(mut input: impl BufRead, mut output: impl Write) -> io::Result<()> {
    let mut world = World::zeros(0, 0);
    let (mut line, mut answer) = (Vec::new(), Vec::new());
    loop {
        line.clear();
        let read = line::read(&mut input, &mut line)?;
        if read == Read::End && line.is_empty() {
            return Ok(());
        }
        answer.clear();
        let done = match read {
            Read::TooLong => Err(format!("expected a line of at most {LINE} characters")),
            _ => respond(&mut world, &String::from_utf8_lossy(&line), &mut answer),
        };
        if let Err(expected) = done {
            answer = format!("error {expected}").into_bytes();
        }
        answer.push(b'\n');
        output.write_all(&answer)?;
        output.flush()?;
        if read == Read::TooLong {
            line::skip(&mut input)?;
        }
    }
}

fn respond(world: &mut World, line: &str, answer: &mut Vec<u8>) -> Result<(), String> {
    match protocol::parse(line)? {
        Line::Greeting => answer.extend_from_slice(GREETING.as_bytes()),
        Line::World { table, memory, state } => {
            *world = World::zeros(table, memory);
            world.state = state;
            answer.extend_from_slice(b"ok");
        }
        Line::Put { part, at, bytes } => {
            let place = place(world, part).get_mut(at..at + bytes.len());
            place.ok_or_else(outside)?.copy_from_slice(&bytes);
            answer.extend_from_slice(b"ok");
        }
        Line::Serve { words, mut buffer, leases } => {
            ask(world, &words, Lent { buffer: &mut buffer, leases: &leases }, answer);
        }
        Line::Show { part, at, length } => {
            let shown = place(world, part).get(at..at + length).ok_or_else(outside)?;
            answer.extend_from_slice(b"bytes");
            protocol::write_bytes(answer, shown);
        }
    }
    Ok(())
}

fn place(world: &mut World, part: Name) -> &mut [u8] {
    match part {
        Name::Table => &mut world.table,
        Name::Memory => &mut world.memory,
    }
}

fn outside() -> String {
    "expected a place inside the world's table or memory".to_string()
}

fn ask(world: &mut World, words: &Words, lent: Lent, answer: &mut Vec<u8>) {
    let Lent { buffer, leases } = lent;
    let reply = world.serve(words, Lent { buffer, leases });
    answer.extend_from_slice(b"answer");
    protocol::write_numbers(answer, &reply.in_order());
    protocol::write_numbers(answer, &world.state.in_order());
    protocol::write_bytes(answer, buffer);
}
