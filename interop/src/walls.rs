//! Walls of requests: calls on tables of any records, sound and hostile, made by the
//! archive and by the model's table, sends through channels of any words. Everything
//! lent is compared after each.

use crate::archive::Archive;
use crate::edges::walls::of_wall;
use crate::functions::{Fun, Slice};
use crate::guc::{self, Descriptor, Dwords, Record, Sender, Wall, WallAnswer};
use crate::lent::{halves, words, Lent};
use crate::same::{same, same_lent, Outcome};
use crate::tally::Tally;
use model::generate::{wall_call, wall_case, Rng, WallCase};
use model::run::Channel;
use model::wall::table::Table;
use model::wall::{Answer, Call};

/// The function a call is of.
pub fn fun_of(call: &Call) -> Fun {
    match call {
        Call::Fresh(_) => Fun::WallFresh,
        Call::Send(..) => Fun::WallSend,
        Call::Reply(_) => Fun::WallReply,
    }
}

/// The model's answer as the archive gives it.
fn expected(answer: &Answer) -> WallAnswer {
    let Answer { code, kind, fence, action, count } = *answer;
    WallAnswer { code, kind, fence, action, count }
}

/// The model's wall: its table and the channel that its requests go out by.
pub struct Modelled {
    pub table: Table,
    pub channel: Channel,
}

/// A table, what its calls share and the channel, lent to the archive.
pub struct Memory {
    table: Lent<u16>,
    wall: Lent<u16>,
    pub channel: Archive,
}

impl Memory {
    pub fn of(rng: &mut Rng, model: &Modelled) -> Memory {
        Memory {
            table: halves(rng, &model.table.words()),
            wall: halves(rng, &model.table.wall_words()),
            channel: Archive::of(rng, &model.channel),
        }
    }

    /// The archive's table becomes the model's.
    pub fn write_over(&mut self, model: &Table) {
        self.table.get_mut().copy_from_slice(&model.words());
        self.wall.get_mut().copy_from_slice(&model.wall_words());
    }

    fn compare(&self, model: &Modelled) -> Outcome {
        same_lent("last fence and N", &self.wall, &model.table.wall_words())?;
        same_lent("table", &self.table, &model.table.words())
            .map_err(|problem| format!("{problem} (five words are a record)"))?;
        self.channel.compare(&model.channel)
    }

    /// Whether anything that this call is lent lies against a forbidden page; what is
    /// NULL is counted.
    fn look_over(&self, tally: &mut Tally, fun: Fun, message: Option<&Lent<u32>>) -> bool {
        let Archive { desc, buf, sender, .. } = &self.channel;
        if self.table.null() {
            tally.null(fun, Slice::Table);
        }
        if message.map_or(false, |message| message.null()) {
            tally.null(fun, Slice::Message);
        }
        if fun == Fun::WallSend && buf.null() {
            tally.null(fun, Slice::Ring);
        }
        let ring = fun == Fun::WallSend && [desc, buf, sender].iter().any(|lent| lent.paged());
        let message = message.map_or(false, |message| message.paged());
        self.table.paged() || self.wall.paged() || ring || message
    }

    /// Makes a call; its message is lent with guards too.
    fn call(
        &mut self,
        rng: &mut Rng,
        tally: &mut Tally,
        call: &Call,
    ) -> Result<WallAnswer, String> {
        let lent = match call {
            Call::Fresh(_) => None,
            Call::Send(message, _) | Call::Reply(message) => Some(words(rng, message)),
        };
        let paged = self.look_over(tally, fun_of(call), lent.as_ref());
        tally.mark("call with a slice against a forbidden page", paged as u64);
        let wall = Wall::over(self.wall.get_mut());
        let table = self.table.lend_mut().map(Record::over);
        let message = lent.as_ref().and_then(|lent| lent.lend());
        let answer = match call {
            Call::Fresh(n) => {
                let code = guc::wall_fresh(wall, table, *n);
                WallAnswer { code, kind: 0, fence: 0, action: 0, count: 0 }
            }
            Call::Send(_, room) => {
                let Archive { desc, buf, sender, .. } = &mut self.channel;
                let s = Sender::over(sender.get_mut());
                let d = Descriptor::over(desc.get_mut());
                guc::wall_send((wall, table), (s, d, buf.lend_mut()), message, *room)
            }
            Call::Reply(_) => guc::wall_reply(wall, table, message),
        };
        match (call, &lent) {
            (Call::Send(dwords, _) | Call::Reply(dwords), Some(lent)) => {
                same_lent("message", lent, dwords).map(|()| answer)
            }
            _ => Ok(answer),
        }
    }
}

/// One call by the archive and by the model's table, and all that they leave.
pub fn step(
    rng: &mut Rng,
    tally: &mut Tally,
    (memory, model): (&mut Memory, &mut Modelled),
    call: &Call,
) -> Result<Answer, String> {
    let got = memory.call(rng, tally, call)?;
    let answer = model.table.apply(&mut model.channel, call);
    same("answer", got, expected(&answer))?;
    memory.compare(model)?;
    Ok(answer)
}

/// The call, for a difference's words.
pub fn named(call: &Call, problem: String) -> String {
    let front = |message: &[u32]| {
        let two = message.iter().take(2).map(|dword| format!(" {dword:#010X}"));
        format!("{} dwords,{}", message.len(), two.collect::<String>())
    };
    match call {
        Call::Fresh(n) => format!("fresh for N {n}: {problem}"),
        Call::Send(message, room) => format!("send of {}, room {room}: {problem}", front(message)),
        Call::Reply(message) => format!("reply of {}: {problem}", front(message)),
    }
}

/// This call on this table.
pub fn check_wall_case(rng: &mut Rng, tally: &mut Tally, case: WallCase) -> Outcome {
    let WallCase { table, channel, call } = case;
    let mut model = Modelled { table, channel };
    let mut memory = Memory::of(rng, &model);
    check_call(rng, tally, (&mut memory, &mut model), &call)
}

/// One call, with where it stands.
pub fn check_call(
    rng: &mut Rng,
    tally: &mut Tally,
    (memory, model): (&mut Memory, &mut Modelled),
    call: &Call,
) -> Outcome {
    let (stands, first) = of_wall(&model.table, &model.channel, call);
    let records = model.table.records.len();
    let (n, ring) = (model.table.n, model.channel.buf.len());
    let said = |problem| format!("{records} records, N {n}, ring {ring}: {}", named(call, problem));
    let answer = step(rng, tally, (memory, model), call).map_err(said)?;
    same("answer beside the first thing that is wrong", answer.code, first).map_err(said)?;
    tally.answer_at(fun_of(call), answer.code, &stands).map_err(said)?;
    tally.input(&stands);
    Ok(())
}

/// A few calls, one after another, on a table of any records.
pub fn check_table(rng: &mut Rng, tally: &mut Tally) -> Outcome {
    let WallCase { table, channel, call } = wall_case(rng);
    let mut model = Modelled { table, channel };
    let mut memory = Memory::of(rng, &model);
    let more = rng.below(4);
    check_call(rng, tally, (&mut memory, &mut model), &call)?;
    for _ in 0..more {
        let openings = rng.pick(&[2, 4]);
        let call = wall_call(rng, &model.table, openings);
        check_call(rng, tally, (&mut memory, &mut model), &call)?;
    }
    tally.mark("calls on tables of any records", more + 1);
    Ok(())
}
