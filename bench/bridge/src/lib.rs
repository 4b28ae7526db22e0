//! Safe Rust over the proved northbridge.
//!
//! The slices are lent as `&mut`, so no two can overlap; the request, the state and the answer are
//! values of their own, so none can be short. Nothing is asked of table, memory and buffer: any
//! bytes and any lengths have a defined answer. docs/USING.md says what the machine does.
//!
//! ```
//! use bridge::{Encoding, Northbridge, Permissions, Refusal, Request, Task, Token};
//!
//! let (mut table, mut memory) = ([0; 4 * 32], [0; 65_536]);
//! let mut bridge = Northbridge::reset([1, 2], 1, &mut table, &mut memory)?;
//! let (token, permissions, encoding) = (Token::ROOT, Permissions::W, Encoding::E0);
//! let part = Request::Derive { token, offset: 0, length: 64, permissions, encoding };
//! let part = bridge.ask(&part)?.first;
//! bridge.write(part.at(12)?, Task::NONE, b"twelve bytes")?;
//! let refused = bridge.read(part, Task::NONE, &mut [0; 12]).unwrap_err();
//! assert_eq!(refused, Refusal::Right);
//! assert_eq!(refused.to_string(), "refusal 7, right lacking");
//! # Ok::<(), Box<dyn std::error::Error>>(())
//! ```
//!
//! A load writes what a card's HEX text says, and a dump tells a segment as such text:
//!
//! ```
//! # use bridge::{Northbridge, Refusal, Task, Token};
//! # let (mut table, mut memory) = ([0; 4 * 32], [0; 4]);
//! # let mut bridge = Northbridge::reset([1, 2], 1, &mut table, &mut memory)?;
//! let image = b":03000100010203F6\n:00000001FF\n";
//! bridge.load(Token::ROOT, Task::NONE, image)?;
//! let mut text = [0; 64];
//! let length = bridge.dump(Token::ROOT, Task::NONE, &mut text)?;
//! assert_eq!(&text[..length], b":020000040000FA\n:0400000000010203F6\n:00000001FF\n");
//! let refused = bridge.load(Token::ROOT, Task::NONE, b":00000001FF\r\n").unwrap_err();
//! assert_eq!(refused, Refusal::Malformed);
//! # Ok::<(), Refusal>(())
//! ```
//!
//! How many numbers are left is known without a request:
//!
//! ```
//! # use bridge::{Encoding, Northbridge, Refusal, Request, Token};
//! # let (mut table, mut memory) = ([0; 4 * 32], [0; 4]);
//! # let mut bridge = Northbridge::reset([1, 2], 1, &mut table, &mut memory)?;
//! # let code = Request::ExecuteOnly { token: Token::ROOT, encoding: Encoding::E0 };
//! assert_eq!(bridge.free_total(), 3);
//! for _ in 0..bridge.free_total() {
//!     bridge.ask(&code)?;
//! }
//! assert_eq!(bridge.ask(&code), Err(Refusal::Numbers));
//! # Ok::<(), Refusal>(())
//! ```
//!
//! Where cards run by shifts, accesses are asked during one: at a minute of the week, under leases.
//! Without one there are no shifts, and every minute is open:
//!
//! ```
//! # use bridge::{minute_of, Lease, Northbridge, Refusal, Shift, Task, Token};
//! # let (mut table, mut memory) = ([0; 4 * 32], [0; 4]);
//! # let mut bridge = Northbridge::reset([1, 2], 1, &mut table, &mut memory)?;
//! // Monday from 06:00 to 14:00.
//! let early = Lease::of(Token::ROOT, 360, 840).expect("a number of the table");
//! let leases = [early.to_bytes()];
//! let at = |minute| Shift { minute, leases: &leases };
//! bridge.during(at(360)).write(Token::ROOT, Task::NONE, &[1, 2])?;
//! let cleaning = bridge.during(at(840)).write(Token::ROOT, Task::NONE, &[3, 4]);
//! assert_eq!(cleaning, Err(Refusal::Closed));
//! let tuesday = minute_of(1, 8, 0);
//! assert_eq!(bridge.during(at(tuesday)).load(Token::ROOT, Task::NONE, b""), Err(Refusal::Malformed));
//! # Ok::<(), Refusal>(())
//! ```
//!
//! An idle segment is paged out, and its memory is free for others; paged in, it is where a segment as
//! long was:
//!
//! ```
//! # use bridge::{Encoding, Northbridge, PageIn, PageOut, Refusal, Task, Token};
//! # let (mut table, mut memory) = ([0; 4 * 32], [7; 4]);
//! # let mut bridge = Northbridge::reset([1, 2], 1, &mut table, &mut memory)?;
//! # let (task, encoding) = (Task::NONE, Encoding::E0);
//! let mut disk = [0; 4];
//! let out = PageOut { token: Token::ROOT, page_file: 1, task, encoding };
//! let out = bridge.page_out(&out, &mut disk)?;
//! assert_eq!((disk, &*bridge.memory), ([7; 4], &[0; 4][..]));
//! assert_eq!(bridge.read(out.paged, task, &mut [0]), Err(Refusal::Paged));
//! let back = PageIn { paged: out.paged, donor: out.segment, task, encoding };
//! let back = bridge.page_in(&back, &disk)?;
//! bridge.read(back, task, &mut disk)?;
//! assert_eq!(disk, [7; 4]);
//! # Ok::<(), Refusal>(())
//! ```
//!
//! An access is no request of [`Northbridge::ask`], since it needs a buffer:
//!
//! ```compile_fail,E0599
//! # use bridge::{Northbridge, Request, Task, Token};
//! # fn asked(bridge: &mut Northbridge) {
//! bridge.ask(&Request::Read { token: Token::ROOT, task: Task::NONE });
//! # }
//! ```
//!
//! What is no access has no shift:
//!
//! ```compile_fail,E0599
//! # use bridge::{Northbridge, Request, Shift, Token};
//! # fn asked(bridge: &mut Northbridge, shift: Shift) {
//! bridge.during(shift).ask(&Request::Clone { token: Token::ROOT });
//! # }
//! ```
//!
//! A read fills bytes that can be written, and a token is no task:
//!
//! ```compile_fail,E0308
//! # use bridge::{Northbridge, Task, Token};
//! # fn asked(bridge: &mut Northbridge) {
//! bridge.read(Token::ROOT, Task::NONE, &[0; 12]);
//! # }
//! ```
//!
//! ```compile_fail,E0308
//! # use bridge::{Northbridge, Task, Token};
//! # fn asked(bridge: &mut Northbridge) {
//! bridge.read(Task::NONE, Token::ROOT, &mut [0; 12]);
//! # }
//! ```

mod answer;
mod bytes;
mod call;
mod lease;
mod northbridge;
mod operation;
mod refusal;
mod request;
mod rights;
mod serve;
mod state;
mod token;
mod words;

pub use answer::{Granted, Reply};
pub use bytes::{put_words, words_of};
pub use call::{call, call_leased};
pub use lease::{minute_of, Lease, Shift, LEASES_BYTES, LEASE_BYTES, WEEK};
pub use northbridge::{During, Northbridge, PagedOut};
pub use operation::{text_length, Buffer, Operation, ACCESS_BYTES, TEXT_BYTES};
pub use refusal::{refusal_words, Check, Place, Refusal};
pub use request::{PageIn, PageOut, Request};
pub use rights::{Permissions, Task};
pub use serve::{is_plain, serve, serve_leased, serve_lent, Lent};
pub use serve::{ANSWER_BYTES, REQUEST_BYTES, STATE_BYTES, VERSION};
pub use state::State;
pub use token::{Encoding, Token, TooFar};
pub use words::{Argument, Words};
