//! What must be set aside after a list of calls from an empty table, told by the
//! list and its answers alone. From T-08: "over any calls from an empty table that
//! nothing else writes, [...] the sum set aside is that of requests opened and not
//! yet closed, defined from the history". No table and no map is looked at.

use super::{Answer, Call, FAILURE, RETRY, SUCCESS};

/// What a call did to a request.
#[derive(Clone, Copy, Debug, PartialEq, Eq)]
enum Event {
    /// Opened with this fence and so many reply dwords.
    Opened(u16, u32),
    /// The request with this fence closed.
    Closed(u16),
}

/// The calls so far that opened or closed a request, in their order.
#[derive(Clone, Debug, Default)]
pub struct History(Vec<Event>);

impl History {
    /// Takes a call and what it answered.
    pub fn push(&mut self, call: &Call, answer: &Answer) {
        match call {
            _ if answer.code != 0 => {}
            Call::Fresh(_) => self.0.clear(),
            Call::Send(_, room) => self.0.push(Event::Opened(answer.fence, *room)),
            Call::Reply(message) if [SUCCESS, FAILURE, RETRY].contains(&answer.kind) => {
                self.0.push(Event::Closed((message[0] >> 16) as u16))
            }
            Call::Reply(_) => {}
        }
    }

    /// The requests opened and not yet closed, with what was set aside for each. A
    /// fence may come again after it was closed, so the list is read from its end: a
    /// closing belongs to the opening of its fence that is nearest before it.
    pub fn open(&self) -> Vec<(u16, u32)> {
        let (mut open, mut closed) = (Vec::new(), Vec::new());
        for event in self.0.iter().rev() {
            match *event {
                Event::Closed(fence) => closed.push(fence),
                Event::Opened(fence, room) => match closed.iter().position(|one| *one == fence) {
                    Some(place) => drop(closed.swap_remove(place)),
                    None => open.push((fence, room)),
                },
            }
        }
        assert!(closed.is_empty(), "closed and never opened: {closed:?}");
        open
    }

    /// The sum of what is set aside for them.
    pub fn set_aside(&self) -> u64 {
        self.open().iter().map(|(_, room)| *room as u64).sum()
    }
}
