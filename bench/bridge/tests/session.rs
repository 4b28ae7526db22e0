//! Paper 01's session through the wrapper, case 6 as paper 1 of 02 has it.

use bridge::{Encoding, Granted, Northbridge, Permissions, Place, Refusal, Request, Task, Token};

#[test]
fn session_of_fifteen_cases() {
    let (mut table, mut memory) = (vec![0; 4 * 32], vec![0; 65_536]);
    let mut bridge = Northbridge::reset([0, 0], 1, &mut table, &mut memory).unwrap();
    let root = Token::ROOT;
    let at = |offset| root.at(offset).unwrap();
    let (permissions, encoding) = (Permissions::R, Encoding::E0);
    let derive = |length| Request::Derive { token: root, offset: 0, length, permissions, encoding };
    let number = |answer: Result<Granted, Refusal>| answer.map(|granted| granted.dropped).ok();
    assert_eq!(bridge.read(at(4_096), Task::NONE, &mut [0; 12]), Ok(()));
    assert_eq!(bridge.read(at(65_535), Task::NONE, &mut [0; 1]), Ok(()));
    assert_eq!(bridge.read(at(65_536), Task::NONE, &mut [0; 1]), Err(Refusal::Bounds));
    assert_eq!(bridge.read(at(65_525), Task::NONE, &mut [0; 12]), Err(Refusal::Bounds));
    let child = bridge.ask(&derive(65_535)).unwrap().first;
    assert!(bridge.ask(&derive(65_536)).is_ok());
    assert_eq!(bridge.ask(&derive(65_537)), Err(Refusal::Bounds));
    let (task, length, user) = (Task::NONE, 4_096, 0);
    let create = Request::Create { token: root, task, length, user, permissions, encoding };
    assert_eq!(bridge.ask(&create), Err(Refusal::Standing));
    let lock = |task| Request::Lock { token: root, task };
    assert_eq!(bridge.ask(&lock(Task::NONE)), Err(Refusal::Request));
    assert!(bridge.ask(&lock(Task(7))).is_ok());
    assert_eq!(bridge.read(root, Task(8), &mut [0; 1]), Err(Refusal::Lock));
    assert_eq!(number(bridge.ask(&Request::Drop { token: root })), Some(0));
    assert!(bridge.ask(&Request::Revoke { token: root, encoding }).is_ok());
    assert_eq!(bridge.read(root, Task::NONE, &mut [0; 1]), Err(Refusal::Entry));
    let dead = Err(Refusal::Dead(Place::Named));
    assert_eq!(bridge.read(child, Task::NONE, &mut [0; 1]), dead);
    assert_eq!(number(bridge.ask(&Request::Drop { token: child })), Some(1));
}
