//! What the trials of the library share.
//!
//! - [`layout`]: the rules of the memory and what its bytes mean, read from docs/layout.md.
//! - [`guard`]: slices that end at, or begin right after, a page that nobody may touch.
//! - [`states`]: memories in use, one for each state that a broker can be in.
//! - [`alter`]: damages to them.
//! - [`edges`]: alterations that bring one rule to its edge.
//! - [`expected`]: what a call on any memory that keeps the rules has to give back and to leave.
//! - [`random`]: a small generator of numbers, the same for the same seed.
//! - [`pair`]: the library and the reference side by side, given the same calls.
//! - [`generator`]: random lists of calls, steered towards every answer and limit.
//! - [`observed`]: what such a list has reached.
//! - [`client`]: the client's side of both, and inputs for it.

pub mod alter;
pub mod client;
pub mod edges;
pub mod expected;
pub mod generator;
pub mod guard;
pub mod layout;
pub mod observed;
pub mod pair;
pub mod random;
pub mod states;
