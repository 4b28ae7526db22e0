use bridge::{Encoding, Northbridge, Permissions, Refusal, Request, Task, Token};
use std::error::Error;

const WEIGHER: Task = Task(7);

fn main() -> Result<(), Box<dyn Error>> {
    let (mut table, mut memory) = ([0; 16 * 32], [0; 65_536]);
    let mut bridge = Northbridge::reset([1, 2], 1, &mut table, &mut memory)?;
    let part = Request::Create {
        token: Token::ROOT,
        task: Task::NONE,
        length: 4_096,
        user: 0,
        permissions: Permissions::R | Permissions::W,
        encoding: Encoding::E0,
    };
    let records = bridge.ask(&part)?.first;
    bridge.write(records.at(36)?, Task::NONE, b"A4711 093.5 ")?;
    bridge.ask(&Request::Lock { token: records, task: WEIGHER })?;
    let mut seen = [0; 12];
    let other = bridge.read(records.at(36)?, Task(8), &mut seen);
    assert_eq!(other, Err(Refusal::Lock));
    bridge.read(records.at(36)?, WEIGHER, &mut seen)?;
    println!("{}", String::from_utf8_lossy(&seen));
    Ok(())
}
