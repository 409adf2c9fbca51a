//! Single calls of the channel's functions on arbitrary and near-valid sides,
//! descriptors, buffers, messages and outputs.

use crate::archive::state_words;
use crate::edges::calls::of_call;
use crate::functions::{Fun, Slice, SLICES};
use crate::guc::{self, Descriptor, Dwords, Receiver, Sender, WholeReceiver, WholeSender};
use crate::lent::{words, Lent};
use crate::same::{same, same_lent, Outcome};
use crate::sets::Set;
use crate::tally::Tally;
use model::channel::Answer;
use model::generate::{self, Rng};
use model::run::{Case, Op};

/// Everything lent to the archive for one call.
struct Memory {
    side: Lent<u32>,
    /// The receiver, which only opening takes beside the sender.
    other: Lent<u32>,
    desc: Lent<u32>,
    buf: Lent<u32>,
    msg: Lent<u32>,
    out: Lent<u32>,
}

impl Memory {
    fn new(rng: &mut Rng, case: &Case) -> Memory {
        let side = state_words(&case.state, case.op.on_two());
        let junk = rng.words(side.len());
        Memory {
            side: words(rng, &side),
            other: words(rng, &junk),
            desc: words(rng, &case.desc),
            buf: words(rng, &case.buf),
            msg: words(rng, &case.msg),
            out: words(rng, &case.out),
        }
    }

    /// Makes the call; answers the number and L.
    fn call(&mut self, op: Op) -> (u32, usize) {
        let code = match op {
            Op::Open | Op::OpenTwo => self.open(op),
            _ if op.sends() => self.send(op),
            _ => return self.receive(op),
        };
        (code, 0)
    }

    fn open(&mut self, op: Op) -> u32 {
        let Memory { side, other, desc, buf, .. } = self;
        let (s, r) = (side.get_mut(), other.get_mut());
        let (d, ring) = (Descriptor::over(desc.get_mut()), buf.lend());
        if op.on_two() {
            guc::whole_open(WholeSender::over(s), WholeReceiver::over(r), d, ring)
        } else {
            guc::open(Sender::over(s), Receiver::over(r), d, ring)
        }
    }

    fn send(&mut self, op: Op) -> u32 {
        let Memory { side, desc, buf, msg, .. } = self;
        let (side, d) = (side.get_mut(), Descriptor::over(desc.get_mut()));
        if op == Op::SendTwo {
            return guc::whole_send(WholeSender::over(side), d, buf.lend_mut(), msg.lend());
        }
        let s = Sender::over(side);
        match op {
            Op::SendLook => guc::send_look(s, d, buf.lend(), msg.lend()),
            Op::SendMove => guc::send_store(s, d, buf.lend_mut()),
            Op::SendMoveAll => guc::send_store_all(s, d, buf.lend_mut()),
            Op::SendPublish => guc::send_publish(s, d, buf.lend()),
            _ => guc::send(s, d, buf.lend_mut(), msg.lend()),
        }
    }

    fn receive(&mut self, op: Op) -> (u32, usize) {
        let Memory { side, desc, buf, out, .. } = self;
        let (side, ring, out) = (side.get_mut(), buf.lend(), out.lend_mut());
        let d = Descriptor::over(desc.get_mut());
        if op == Op::ReceiveTwo {
            let got = guc::whole_receive(WholeReceiver::over(side), d, ring, out);
            return (got.code, got.len);
        }
        let r = Receiver::over(side);
        let got = match op {
            Op::ReceiveLook => return (guc::receive_look(r, d, ring), 0),
            Op::ReceiveMove => return (guc::receive_copy(r, d, ring), 0),
            Op::ReceiveMoveAll => return (guc::receive_copy_all(r, d, ring), 0),
            Op::ReceivePublish => guc::receive_publish(r, d, ring, out),
            _ => guc::receive(r, d, ring, out),
        };
        (got.code, got.len)
    }

    /// Whether any of it lies against a page that may not be touched.
    fn paged(&self) -> bool {
        [&self.side, &self.other, &self.desc, &self.buf, &self.msg, &self.out]
            .iter()
            .any(|lent| lent.paged())
    }

    /// Counts the slices of this function that were lent as NULL.
    fn count_nulls(&self, tally: &mut Tally, fun: Fun) {
        let lent =
            [(Slice::Ring, &self.buf), (Slice::Message, &self.msg), (Slice::Output, &self.out)];
        for (slice, lent) in lent {
            if lent.null() && SLICES.contains(&(fun, slice)) {
                tally.null(fun, slice);
            }
        }
    }

    /// Compares everything lent with the model's case after its own run.
    fn compare(&self, model: &Case, answer: &Answer) -> Outcome {
        let next = state_words(&answer.next, model.op.on_two());
        same_lent("side", &self.side, &next)?;
        if model.op.opens() {
            same_lent("receiver", &self.other, &next)?;
        }
        same_lent("descriptor", &self.desc, &model.desc)?;
        same_lent("buffer", &self.buf, &model.buf)?;
        same_lent("message", &self.msg, &model.msg)?;
        same_lent("output", &self.out, &model.out)
    }
}

fn fun_of(op: Op) -> Fun {
    match op {
        Op::SendLook => Fun::SendLook,
        Op::SendMove => Fun::SendStore,
        Op::SendMoveAll => Fun::SendStoreAll,
        Op::SendPublish => Fun::SendPublish,
        Op::SendWhole => Fun::Send,
        Op::SendTwo => Fun::WholeSend,
        Op::ReceiveLook => Fun::ReceiveLook,
        Op::ReceiveMove => Fun::ReceiveCopy,
        Op::ReceiveMoveAll => Fun::ReceiveCopyAll,
        Op::ReceivePublish => Fun::ReceivePublish,
        Op::ReceiveWhole => Fun::Receive,
        Op::ReceiveTwo => Fun::WholeReceive,
        Op::Open => Fun::Open,
        Op::OpenTwo => Fun::WholeOpen,
    }
}

/// Counts the type of the message that an accepted call took or handed out.
fn count_type(tally: &mut Tally, case: &Case) -> Outcome {
    let (set, message) = match case.op {
        Op::SendLook => (Set::SendLook, &case.msg),
        Op::SendWhole => (Set::Send, &case.msg),
        Op::SendTwo => (Set::WholeSend, &case.msg),
        Op::ReceivePublish => (Set::ReceivePublish, &case.out),
        Op::ReceiveWhole => (Set::Receive, &case.out),
        Op::ReceiveTwo => (Set::WholeReceive, &case.out),
        _ => return Ok(()),
    };
    tally.accepted(set, (message[1] >> 28) % 8)
}

/// Counts what an accepted call did beside that.
fn mark_accepted(tally: &mut Tally, case: &Case, answer: &Answer) {
    if answer.len > 0 && case.out.len() > 256 {
        tally.mark("output longer than 256: rest unchanged", 1);
    }
    if answer.next.own < case.state.own && !case.op.opens() {
        tally.mark("message across the ring's end", 1);
    }
}

/// One call, made by both.
pub fn check(rng: &mut Rng, tally: &mut Tally) -> Outcome {
    let case = generate::case(rng);
    check_case(rng, tally, case)
}

/// This call, made by both.
pub fn check_case(rng: &mut Rng, tally: &mut Tally, mut case: Case) -> Outcome {
    let (op, fun, stands) = (case.op, fun_of(case.op), of_call(&case));
    let mut memory = Memory::new(rng, &case);
    let (code, len) = memory.call(op);
    let answer = case.run();
    let named = |problem: String| format!("{op:?}: {problem}");
    same("number", code, answer.code).map_err(named)?;
    same("L", len, answer.len as usize).map_err(named)?;
    memory.compare(&case, &answer).map_err(named)?;
    tally.answer_at(fun, code, &stands).map_err(named)?;
    tally.input(&stands);
    memory.count_nulls(tally, fun);
    tally.mark("call with a slice against a forbidden page", memory.paged() as u64);
    if code == 0 {
        count_type(tally, &case).map_err(named)?;
        mark_accepted(tally, &case, &answer);
    }
    Ok(())
}
