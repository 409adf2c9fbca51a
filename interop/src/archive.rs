//! A channel run by the archive: the same face as the model's, over lent
//! memory with guards.

use crate::functions::Fun;
use crate::guc::{self, Descriptor, Dwords, Received};
use crate::guc::{Receiver, Sender, WholeReceiver, WholeSender};
use crate::lent::{words, Lent};
use crate::same::{same, same_lent, Outcome};
use model::channel::State;
use model::generate::Rng;
use model::plain::{Operation, Reply};
use model::run::{Channel, Side};

/// A model's state as the 260 words the archive takes, or the two of a side that
/// makes whole calls only. Of the former the header names own, len and moved; the
/// order of all of them is the archive's own.
pub fn state_words(state: &State, two: bool) -> Vec<u32> {
    let mut words = vec![state.n, state.own];
    if !two {
        words.extend([state.len, state.moved]);
        words.extend(state.copy);
    }
    words
}

/// A side's words.
pub fn side_words(side: &Side) -> Vec<u32> {
    match side {
        Side::Steps(state) => state_words(state, false),
        Side::Two(two) => two.to_vec(),
    }
}

/// A channel and both sides, all of it lent to the archive.
pub struct Archive {
    pub desc: Lent<u32>,
    pub buf: Lent<u32>,
    pub sender: Lent<u32>,
    pub receiver: Lent<u32>,
    /// Whether the sender, the receiver is a side of two words.
    two: [bool; 2],
}

/// Sides of junk.
fn junk(rng: &mut Rng, count: usize) -> [Lent<u32>; 2] {
    [0; 2].map(|_| {
        let junk = rng.words(count);
        words(rng, &junk)
    })
}

impl Archive {
    /// Opens over this buffer, whatever descriptor and sides held before: once for
    /// sides that make steps and once for others, in any order, so that the
    /// channel can have one of each. Nothing but 0 will do.
    pub fn open(
        rng: &mut Rng,
        desc: &[u32],
        buf: &[u32],
        two: [bool; 2],
    ) -> Result<Archive, String> {
        let (mut desc, buf) = (words(rng, desc), words(rng, buf));
        let [mut s, mut r] = junk(rng, Sender::COUNT);
        let [mut ws, mut wr] = junk(rng, WholeSender::COUNT);
        let steps_first = rng.chance(1, 2);
        for steps in [steps_first, !steps_first] {
            let d = Descriptor::over(desc.get_mut());
            let code = if steps {
                let (s, r) = (Sender::over(s.get_mut()), Receiver::over(r.get_mut()));
                guc::open(s, r, d, buf.lend())
            } else {
                let (s, r) = (WholeSender::over(ws.get_mut()), WholeReceiver::over(wr.get_mut()));
                guc::whole_open(s, r, d, buf.lend())
            };
            same("opening", code, 0)?;
        }
        let sender = if two[0] { ws } else { s };
        let receiver = if two[1] { wr } else { r };
        Ok(Archive { desc, buf, sender, receiver, two })
    }

    /// A channel with the model's words, whatever they are.
    pub fn of(rng: &mut Rng, model: &Channel) -> Archive {
        Archive {
            desc: words(rng, &model.desc),
            buf: words(rng, &model.buf),
            sender: words(rng, &side_words(&model.sender)),
            receiver: words(rng, &side_words(&model.receiver)),
            two: [model.sender.is_two(), model.receiver.is_two()],
        }
    }

    /// All of it against the model's.
    pub fn compare(&self, model: &Channel) -> Outcome {
        same_lent("descriptor", &self.desc, &model.desc)?;
        same_lent("buffer", &self.buf, &model.buf)?;
        same_lent("sender", &self.sender, &side_words(&model.sender))?;
        same_lent("receiver", &self.receiver, &side_words(&model.receiver))
    }

    /// The function an operation calls.
    pub fn fun_of(&self, operation: &Operation) -> Fun {
        match operation {
            Operation::SendLook(_) => Fun::SendLook,
            Operation::SendMove => Fun::SendStore,
            Operation::SendMoveAll => Fun::SendStoreAll,
            Operation::SendPublish => Fun::SendPublish,
            Operation::SendWhole(_) if self.two[0] => Fun::WholeSend,
            Operation::SendWhole(_) => Fun::Send,
            Operation::ReceiveLook => Fun::ReceiveLook,
            Operation::ReceiveMove => Fun::ReceiveCopy,
            Operation::ReceiveMoveAll => Fun::ReceiveCopyAll,
            Operation::ReceivePublish(_) => Fun::ReceivePublish,
            Operation::ReceiveWhole(_) if self.two[1] => Fun::WholeReceive,
            Operation::ReceiveWhole(_) => Fun::Receive,
        }
    }

    /// Runs one operation; its message or output is lent with guards too. An
    /// error says what was written that may not be.
    pub fn apply(&mut self, rng: &mut Rng, operation: &Operation) -> Result<Reply, String> {
        if operation.sends() {
            self.send(rng, operation)
        } else {
            self.receive(rng, operation)
        }
    }

    fn send(&mut self, rng: &mut Rng, operation: &Operation) -> Result<Reply, String> {
        let Archive { desc, buf, sender, two, .. } = self;
        let (d, s) = (Descriptor::over(desc.get_mut()), sender.get_mut());
        let code = match operation {
            Operation::SendMove => guc::send_store(Sender::over(s), d, buf.lend_mut()),
            Operation::SendMoveAll => guc::send_store_all(Sender::over(s), d, buf.lend_mut()),
            Operation::SendPublish => guc::send_publish(Sender::over(s), d, buf.lend()),
            Operation::SendLook(dwords) => {
                let msg = words(rng, dwords);
                let code = guc::send_look(Sender::over(s), d, buf.lend(), msg.lend());
                same_lent("message", &msg, dwords).map(|()| code)?
            }
            Operation::SendWhole(dwords) => {
                let msg = words(rng, dwords);
                let code = if two[0] {
                    guc::whole_send(WholeSender::over(s), d, buf.lend_mut(), msg.lend())
                } else {
                    guc::send(Sender::over(s), d, buf.lend_mut(), msg.lend())
                };
                same_lent("message", &msg, dwords).map(|()| code)?
            }
            _ => unreachable!("a receiver's operation"),
        };
        Ok(Reply { code, len: 0, output: Vec::new() })
    }

    fn receive(&mut self, rng: &mut Rng, operation: &Operation) -> Result<Reply, String> {
        let Archive { desc, buf, receiver, two, .. } = self;
        let (d, r) = (Descriptor::over(desc.get_mut()), receiver.get_mut());
        let code = match operation {
            Operation::ReceiveLook => guc::receive_look(Receiver::over(r), d, buf.lend()),
            Operation::ReceiveMove => guc::receive_copy(Receiver::over(r), d, buf.lend()),
            Operation::ReceiveMoveAll => guc::receive_copy_all(Receiver::over(r), d, buf.lend()),
            Operation::ReceivePublish(lent) => {
                let mut out = words(rng, lent);
                let got = guc::receive_publish(Receiver::over(r), d, buf.lend(), out.lend_mut());
                return received(got, &out);
            }
            Operation::ReceiveWhole(lent) => {
                let mut out = words(rng, lent);
                let got = if two[1] {
                    guc::whole_receive(WholeReceiver::over(r), d, buf.lend(), out.lend_mut())
                } else {
                    guc::receive(Receiver::over(r), d, buf.lend(), out.lend_mut())
                };
                return received(got, &out);
            }
            _ => unreachable!("a sender's operation"),
        };
        Ok(Reply { code, len: 0, output: Vec::new() })
    }
}

/// A receive's answer with its output afterwards.
fn received(got: Received, out: &Lent<u32>) -> Result<Reply, String> {
    let output = out.get().to_vec();
    same_lent("output", out, &output)?;
    Ok(Reply { code: got.code, len: u32::try_from(got.len).unwrap_or(u32::MAX), output })
}
