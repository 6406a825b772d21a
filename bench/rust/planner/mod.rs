//! Two planners for document 01 and the orders of document 02, written from the papers alone; they share no code with the
//! crates.
//! `model` is slow and clear: it says what the answers are, and the stored outputs come from it.
//! `fast` is what the proved planner is timed against, on the fastest road known and on the proved one's own.
//! They share the table of devices, the requests with their checks, and the shape of the calls; each program here uses a part.
#![allow(dead_code)]

pub mod catalogue;
pub mod devices;
pub mod fast;
pub mod model;
pub mod pebs;
pub mod refusal;
pub mod requests;
pub mod u_box;

use devices::Opening;
use refusal::Refusal;
use requests::{Entry, NamedEvent, Place, Request};

/// The most requests that can wait.
pub const LIMIT: usize = 16;
/// As many places as a plan has room for, at least as many as a device has counters.
pub const PLACES: usize = 8;
/// The numbers that are lent to a turn of a line: the room of 22 writes, the most there are.
pub const LIST: usize = 44;
/// The most turns at once (order 6).
pub const SHIFT: u64 = 64;
/// The most records that the host can lend for a queue (order 8).
pub const RECORDS: usize = 256;

/// What a turn took, in the order taken, with the places that the plan gives, and the number of its writes.
#[derive(Clone, Copy, PartialEq, Eq, Debug)]
pub struct Turn {
    pub taken: [Entry; PLACES],
    pub places: [Place; PLACES],
    pub count: usize,
    pub writes: usize,
}

/// The calls of a session. A refused call answers its number with the field at fault, and changes nothing.
pub trait Calls {
    /// The lent session of the same planner.
    type Lent: LentCalls;
    fn new() -> Self;
    fn open(&mut self, opening: Opening) -> Result<(), Refusal>;
    fn add(&mut self, id: u64, request: Request) -> Result<(), Refusal>;
    /// An add by name (order 9), where well-formed lists have this row under it, or none.
    fn add_named(&mut self, id: u64, row: Option<NamedEvent>, allowed: u64) -> Result<(), Refusal>;
    fn drop(&mut self, id: u64) -> Result<(), Refusal>;
    fn turn(&mut self, list: &mut [u64]) -> Result<Turn, Refusal>;
    /// So many turns at once (order 6): the lists one after another, and the places where they end.
    fn turns(&mut self, count: u64, lists: &mut [u64], ends: &mut [u64]) -> Result<(), Refusal>;
    fn queue(&self) -> &[Entry];
}

/// The calls of a session without a queue of its own (order 8): the queue lies in the records that the host lends to each
/// call, those that wait first and vacant ones behind them. A refused call answers as one of a session does, and changes nothing.
pub trait LentCalls: Clone {
    fn new() -> Self;
    /// Makes all records vacant.
    fn open(&mut self, rows: &mut [Entry], opening: Opening) -> Result<(), Refusal>;
    fn add(&self, rows: &mut [Entry], id: u64, request: Request) -> Result<(), Refusal>;
    fn drop(&self, rows: &mut [Entry], id: u64) -> Result<(), Refusal>;
    fn turn(&self, rows: &mut [Entry], list: &mut [u64]) -> Result<Turn, Refusal>;
}
