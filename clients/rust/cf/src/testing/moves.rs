//! The moves of an order, and how they are written.
use std::fmt;
use std::str::FromStr;

/// The number of a request in its run, and that of its stage.
#[derive(Clone, Copy, Debug, PartialEq, Eq, PartialOrd, Ord, Hash)]
pub(crate) struct Place {
    pub(crate) request: u16,
    pub(crate) stage: u16,
}

impl Place {
    pub(crate) fn new(request: u16, stage: u16) -> Place {
        Place { request, stage }
    }
}

/// Somebody whose code goes on over several moves.
#[derive(Clone, Copy, Debug, PartialEq, Eq, PartialOrd, Ord, Hash)]
pub(crate) enum Who {
    Function(Place),
    Caller(u16),
    Test,
    /// A thread of a process of a store, by the numbers of both.
    Thread(u16, u32),
}

/// What may happen next in a store. The crate `cf-store` makes these moves; here they are written.
#[derive(Clone, Copy, Debug, PartialEq, Eq, PartialOrd, Ord, Hash)]
pub enum StoreMove {
    /// A thread of a process begins.
    Job(u16, u32),
    /// What a thread has asked of the store, the so-manyth time, is answered in a way, or it calls a function.
    Ask(u16, u32, u32, u16),
    /// The time is over for which a thread waits.
    Late(u16, u32, u32),
    /// A process looks what is new.
    Look(u16),
    /// A process finds that the limit of a stage of a request has passed, which was the so-manyth.
    Due(u16, u16, u16, u32),
    /// A process takes another one for gone.
    Gone(u16, u16),
    /// A process is killed.
    Kill(u16),
    /// The so-manyth put that was on its way comes.
    Land(u32),
    /// Nobody is killed any more.
    Spare,
}

/// What may happen next. The texts, which a failure prints as its row:
///
/// ```text
/// begin.R.S     a ready function is claimed: stage S of request R
/// call.R.S      it is called. With all that it does, up to where it waits, this is one move
/// poll.R.S      the future that it gave is polled, since it was woken
/// go.WHO        who waited goes on: R.S, caller.N or test
/// choose.WHO.K  who waits for a choice goes on with its Kth way
/// end.R.S       a function that was called is finished with what it gave
/// come.N.K      what comes from outside comes: the Nth, in its Kth way
/// by.N.K        caller N makes its Kth call
/// limit.R.S.K   the next limit of request R passes, which was the Kth, on stage S
/// stop          no limit passes any more
/// ```
///
/// Of a store's process P and its thread N, whose WHO is `pP.N`:
///
/// ```text
/// job.pP.N      the thread begins: it works on a request, or does what a test says
/// ask.pP.N.M.K  what it asked of the store is answered in way K, or a function is called, and it goes on; it is the Mth time
/// late.pP.N.M   the time is over for which it waits, the Mth time that it waits so
/// look.pP       the process looks what is new, and a thread of it begins with that
/// due.pP.R.S.K  the process finds that the limit of stage S of request R has passed, which was the Kth
/// gone.pP.Q     the process takes process Q for gone
/// kill.pP       the process is killed
/// land.K        the Kth put that was on its way comes to the store
/// spare         nobody is killed any more, or taken for gone while it is there
/// ```
#[derive(Clone, Copy, Debug, PartialEq, Eq, PartialOrd, Ord, Hash)]
pub(crate) enum Move {
    Begin(Place),
    Call(Place),
    Poll(Place),
    Go(Who),
    Choose(Who, u16),
    End(Place),
    Come(u16, u16),
    By(u16, u16),
    Limit(Place, u32),
    Stop,
    Stored(StoreMove),
}

/// Who makes a move.
#[derive(Clone, Copy, Debug, PartialEq, Eq, PartialOrd, Ord, Hash)]
pub(crate) enum Actor {
    Who(Who),
    Outside(u16),
    Clock(u16),
    Nobody,
    /// What may happen to a process beside what its threads do, of each kind by itself.
    Stored(StoreMove),
}

impl StoreMove {
    fn actor(self) -> Actor {
        Actor::Stored(match self {
            StoreMove::Job(process, thread) | StoreMove::Ask(process, thread, ..) => return Actor::Who(Who::Thread(process, thread)),
            StoreMove::Due(process, ..) => StoreMove::Due(process, 0, 0, 0),
            StoreMove::Gone(process, _) => StoreMove::Gone(process, 0),
            StoreMove::Late(process, ..) => StoreMove::Late(process, 0, 0),
            other => other,
        })
    }

    /// Whether it is a call of a store that isn't answered.
    pub(crate) fn goes_wrong(self) -> bool {
        matches!(self, StoreMove::Ask(.., way) if way > 0)
    }
}

impl Move {
    pub(crate) fn actor(self) -> Actor {
        match self {
            Move::Begin(place) | Move::Call(place) | Move::Poll(place) | Move::End(place) => Actor::Who(Who::Function(place)),
            Move::Go(who) | Move::Choose(who, _) => Actor::Who(who),
            Move::Come(number, _) => Actor::Outside(number),
            Move::By(number, _) => Actor::Who(Who::Caller(number)),
            Move::Limit(place, _) => Actor::Clock(place.request),
            Move::Stop => Actor::Nobody,
            Move::Stored(stored) => stored.actor(),
        }
    }
}

impl fmt::Display for Place {
    fn fmt(&self, f: &mut fmt::Formatter<'_>) -> fmt::Result {
        write!(f, "{}.{}", self.request, self.stage)
    }
}

impl fmt::Display for Who {
    fn fmt(&self, f: &mut fmt::Formatter<'_>) -> fmt::Result {
        match self {
            Who::Function(place) => place.fmt(f),
            Who::Caller(number) => write!(f, "caller.{number}"),
            Who::Test => f.write_str("test"),
            Who::Thread(process, thread) => write!(f, "p{process}.{thread}"),
        }
    }
}

impl fmt::Display for StoreMove {
    fn fmt(&self, f: &mut fmt::Formatter<'_>) -> fmt::Result {
        match self {
            StoreMove::Job(process, thread) => write!(f, "job.p{process}.{thread}"),
            StoreMove::Ask(process, thread, time, way) => write!(f, "ask.p{process}.{thread}.{time}.{way}"),
            StoreMove::Late(process, thread, time) => write!(f, "late.p{process}.{thread}.{time}"),
            StoreMove::Look(process) => write!(f, "look.p{process}"),
            StoreMove::Due(process, request, stage, number) => write!(f, "due.p{process}.{request}.{stage}.{number}"),
            StoreMove::Gone(process, other) => write!(f, "gone.p{process}.{other}"),
            StoreMove::Kill(process) => write!(f, "kill.p{process}"),
            StoreMove::Land(number) => write!(f, "land.{number}"),
            StoreMove::Spare => f.write_str("spare"),
        }
    }
}

impl fmt::Display for Move {
    fn fmt(&self, f: &mut fmt::Formatter<'_>) -> fmt::Result {
        match self {
            Move::Begin(place) => write!(f, "begin.{place}"),
            Move::Call(place) => write!(f, "call.{place}"),
            Move::Poll(place) => write!(f, "poll.{place}"),
            Move::Go(who) => write!(f, "go.{who}"),
            Move::Choose(who, way) => write!(f, "choose.{who}.{way}"),
            Move::End(place) => write!(f, "end.{place}"),
            Move::Come(number, way) => write!(f, "come.{number}.{way}"),
            Move::By(number, call) => write!(f, "by.{number}.{call}"),
            Move::Limit(place, number) => write!(f, "limit.{place}.{number}"),
            Move::Stop => f.write_str("stop"),
            Move::Stored(stored) => stored.fmt(f),
        }
    }
}

fn number<T: FromStr>(part: &str) -> Result<T, ()> {
    part.parse().map_err(|_| ())
}

fn place(request: &str, stage: &str) -> Result<Place, ()> {
    Ok(Place::new(number(request)?, number(stage)?))
}

fn who(parts: &[&str]) -> Result<Who, ()> {
    match parts {
        ["test"] => Ok(Who::Test),
        ["caller", caller] => Ok(Who::Caller(number(caller)?)),
        [its, thread] if its.starts_with('p') => Ok(Who::Thread(process(its)?, number(thread)?)),
        [request, stage] => Ok(Who::Function(place(request, stage)?)),
        _ => Err(()),
    }
}

fn process(part: &str) -> Result<u16, ()> {
    number(part.strip_prefix('p').ok_or(())?)
}

fn stored(parts: &[&str]) -> Result<StoreMove, ()> {
    Ok(match parts {
        ["job", its, thread] => StoreMove::Job(process(its)?, number(thread)?),
        ["ask", its, thread, time, way] => StoreMove::Ask(process(its)?, number(thread)?, number(time)?, number(way)?),
        ["late", its, thread, time] => StoreMove::Late(process(its)?, number(thread)?, number(time)?),
        ["look", its] => StoreMove::Look(process(its)?),
        ["due", its, request, stage, limit] => StoreMove::Due(process(its)?, number(request)?, number(stage)?, number(limit)?),
        ["gone", its, other] => StoreMove::Gone(process(its)?, number(other)?),
        ["kill", its] => StoreMove::Kill(process(its)?),
        ["land", put] => StoreMove::Land(number(put)?),
        ["spare"] => StoreMove::Spare,
        _ => return Err(()),
    })
}

impl FromStr for Move {
    type Err = ();

    fn from_str(text: &str) -> Result<Move, ()> {
        let parts: Vec<&str> = text.split('.').collect();
        Ok(match parts[..] {
            ["begin", request, stage] => Move::Begin(place(request, stage)?),
            ["call", request, stage] => Move::Call(place(request, stage)?),
            ["poll", request, stage] => Move::Poll(place(request, stage)?),
            ["end", request, stage] => Move::End(place(request, stage)?),
            ["go", ..] => Move::Go(who(&parts[1..])?),
            ["choose", .., way] => Move::Choose(who(&parts[1..parts.len() - 1])?, number(way)?),
            ["come", arrival, way] => Move::Come(number(arrival)?, number(way)?),
            ["by", caller, call] => Move::By(number(caller)?, number(call)?),
            ["limit", request, stage, limit] => Move::Limit(place(request, stage)?, number(limit)?),
            ["stop"] => Move::Stop,
            _ => Move::Stored(stored(&parts)?),
        })
    }
}

/// Moves as a text, which [`Orders::row`](super::Orders::row) takes.
pub(crate) fn row_of(moves: &[Move]) -> String {
    moves.iter().map(Move::to_string).collect::<Vec<_>>().join(" ")
}

/// The moves of such a text, or the word that is none.
pub(crate) fn moves_of(row: &str) -> Result<Vec<Move>, String> {
    row.split_whitespace().map(|text| text.parse().map_err(|()| text.to_owned())).collect()
}

#[cfg(test)]
mod tests {
    use super::*;

    #[test]
    fn a_row_is_read_as_it_is_written() {
        let row = "come.0.1 begin.0.1 call.0.1 poll.2.3 go.0.1 go.caller.4 go.test choose.0.1.2 choose.test.3 by.0.1 limit.0.1.7 end.0.1 stop";
        assert_eq!(row_of(&moves_of(row).unwrap()), row);
        let row = "job.p0.1 ask.p0.1.2.3 go.p0.1 choose.p0.1.2 late.p0.1.2 look.p4 due.p1.2.3.4 gone.p1.0 kill.p0 land.2 spare";
        assert_eq!(row_of(&moves_of(row).unwrap()), row);
        for wrong in
            ["job.0.1", "kill", "kill.p", "spare.1", "go.p1", "", "begin", "begin.0", "begin.0.x", "go", "go.4", "choose.1", "stop.1", "comes.0.0"]
        {
            assert!(wrong.parse::<Move>().is_err(), "{wrong}");
        }
        assert_eq!(moves_of("stop comes.0.0"), Err("comes.0.0".into()));
    }
}
