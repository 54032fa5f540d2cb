//! Replies of both checkers in one form.
use plain::Refusal;

/// The last row of the table of refusals.
pub const LAST_ROW: usize = hoidrul::Reason::ALL.len();

/// The library's reply with the plain checker's form of refusal.
pub fn in_plain<T>(reply: Result<T, hoidrul::Refusal>) -> Result<T, Refusal> {
    reply.map_err(|refusal| Refusal::new(refusal.number(), refusal.place))
}

/// A refusal as a reply.
pub fn refused<T>(number: u32, place: usize) -> Result<T, Refusal> {
    Err(Refusal::new(number, place))
}
