//! The library's machine of one request, and when its events were done. One thread at a time has it.
use crate::error::Refusal;
use crate::inner::SLOTS;
use crate::record::EventTimes;
use crate::slot::code_of_error;
use crate::spawn::CLOCK;
use crate::word::{self, WordForm};
use cf_graph::{Ledger as Words, Limit, Outcome, Plan, PlanBuilder, Refused, Reply, Request, RequestSizes, SettledStage, State, Tale, Task, Value};
use std::cell::RefCell;
use std::sync::{Mutex, MutexGuard, PoisonError};

/// How many stages a request can have.
pub(crate) const MOST_STAGES: u16 = 4096;

/// All stages are of one lane, since a request has one executor.
const LANE: u8 = 0;

pub(crate) struct Ledger {
    /// Not there where it rests.
    machine: Option<Request>,
    /// For how many stages there was room at first.
    room: u16,
    pub(crate) stages: u16,
    /// How many of them were shown as settled.
    settled: u16,
    /// The words of a request whose stages are all settled, of which there are at least so many: most likely nothing is done to it any more, so it
    /// has no machine, which takes three times as much. If something is done to it nevertheless, a new machine does all words again.
    words: Vec<u64>,
    rests_from: u16,
    /// How stages end by others, which the words don't tell.
    pub(crate) joins: Vec<Joined>,
    pub(crate) record: EventTimes,
    /// The last moment up to which time has passed for deadlines.
    passed: u64,
}

/// A machine that no request has, for how many stages it has room, and what else of the last request has room.
struct Spare {
    machine: Request,
    room: u16,
    moments: Vec<u32>,
}

/// A stage that ends by others of the same request.
#[derive(Clone, Debug)]
pub(crate) struct Joined {
    pub(crate) stage: u16,
    pub(crate) of: Vec<u16>,
    pub(crate) how: How,
}

/// How a stage ends by others.
#[derive(Clone, Copy, Debug, PartialEq, Eq)]
pub(crate) enum How {
    /// As the only one of them does, which it follows as a relay.
    Follows,
    /// Once so many of them have values, or too few can have them still.
    Joins(u16),
    /// Cancelled, once the only one of them is settled.
    IsCancelled,
}

/// A word that was done again, what it was answered, which stages it made ready, and what it settled.
pub(crate) struct Replayed {
    pub(crate) word: u64,
    pub(crate) reply: Reply,
    pub(crate) ready: Vec<u16>,
    pub(crate) settled: Vec<(u16, Outcome)>,
}

/// The plan that has no stages, of which all requests are.
fn empty_plan() -> Result<MutexGuard<'static, Option<Plan>>, Refused> {
    static NOTHING: Mutex<Option<Plan>> = Mutex::new(None);
    let mut nothing = NOTHING.lock().unwrap_or_else(PoisonError::into_inner);
    if nothing.is_none() {
        *nothing = Some(PlanBuilder::new()?.build()?);
    }
    Ok(nothing)
}

/// What the words did, of which nothing is said yet.
pub(crate) fn new_tale(words: &[u64], stages: u16) -> Result<Tale, Refused> {
    match empty_plan()?.as_mut() {
        Some(plan) => Tale::new(plan, stages, words),
        None => Err(Refused::NO_MEMORY),
    }
}

/// The words done again on a ledger of their own.
pub(crate) fn replay(words: &[u64], stages: u16) -> Result<Vec<Replayed>, Refused> {
    let mut again = match empty_plan()?.as_mut() {
        Some(plan) => Words::new(plan, stages)?,
        None => return Err(Refused::NO_MEMORY),
    };
    let mut is_told = vec![false; usize::from(stages)];
    let mut apply = |word: &u64| {
        let (reply, mut ready, mut settled) = (again.apply(*word)?, Vec::new(), Vec::new());
        for news in again.news() {
            match (news.now.state, is_told[usize::from(news.stage)]) {
                (State::Settled(outcome), false) => {
                    is_told[usize::from(news.stage)] = true;
                    settled.push((news.stage, outcome));
                }
                (State::Ready, _) => ready.push(news.stage),
                _ => {}
            }
        }
        Ok(Replayed { word: *word, reply, ready, settled })
    };
    words.iter().map(&mut apply).collect()
}

/// Whether the words settle stages just as these were, as they are done again.
pub(crate) fn is_replayed(words: &[u64], outcomes: &[Option<Outcome>]) -> Result<bool, Refused> {
    let mut same = vec![None; outcomes.len()];
    for replayed in replay(words, outcomes.len() as u16)? {
        replayed.settled.into_iter().for_each(|(stage, outcome)| same[usize::from(stage)] = Some(outcome));
    }
    Ok(same == outcomes)
}

impl Ledger {
    pub(crate) fn new(room: u16) -> Result<Ledger, Refusal> {
        let room = room.clamp(1, MOST_STAGES);
        let Spare { machine, room, moments } = take_spare(room).map_or_else(|| open_machine(room), Ok).map_err(|_| Refusal::NoLedger)?;
        Ok(Ledger {
            machine: Some(machine),
            room,
            stages: 0,
            settled: 0,
            words: Vec::new(),
            rests_from: SLOTS + 1,
            joins: Vec::new(),
            record: EventTimes::with_room_of(moments),
            passed: 0,
        })
    }

    #[inline(always)]
    fn machine(&mut self) -> Result<&mut Request, Refused> {
        #[cfg(test)]
        crate::held::memory()?;
        if self.machine.is_none() {
            self.resume()?;
        }
        Ok(self.machine.as_mut().expect("it was resumed"))
    }

    /// The same, or nothing where it rests: then no stage is ready, and none is due.
    #[inline]
    fn machine_if_awake(&mut self) -> Option<&mut Request> {
        self.machine.as_mut()
    }

    /// Keeps the words alone, unless there is no memory for them.
    #[cold]
    #[inline(never)]
    fn rest(&mut self) {
        let idle = self.machine.as_mut().filter(|machine| machine.todo().coming(LANE) == 0);
        if let Some(Ok(words)) = idle.map(Request::words) {
            self.words = words;
            self.keep_machine(Vec::new());
        }
    }

    #[cfg(test)]
    pub(crate) fn is_resting(&self) -> bool {
        self.machine.is_none()
    }

    /// Keeps the machine for a later request of this thread, with the room that it has got, unless enough are kept.
    fn keep_machine(&mut self, moments: Vec<u32>) {
        let (machine, room) = (self.machine.take(), self.room.max(self.stages));
        let _ = KEPT.try_with(|kept| {
            let mut kept = kept.borrow_mut();
            let is_kept = kept.len() < MOST_KEPT && kept.iter().map(|it| it.room).sum::<u16>() + room <= MOST_ROOM;
            if let Some(mut machine) = machine.filter(|_| is_kept) {
                if machine.restart().is_ok() {
                    kept.push(Spare { machine, room, moments });
                }
            }
        });
    }

    /// Has a machine again. It rests the next time once there are twice as many stages, so that words are done again but a few times.
    #[cold]
    #[inline(never)]
    fn resume(&mut self) -> Result<(), Refused> {
        let twice = MOST_STAGES.min(2 * self.stages);
        let mut machine = take_spare(twice).map_or_else(|| open_machine(twice), Ok)?.machine;
        for word in &self.words {
            machine.apply(*word, LANE)?;
        }
        self.words = Vec::new();
        self.machine = Some(machine);
        self.rests_from = twice;
        Ok(())
    }

    /// Does the event of a word.
    #[inline]
    pub(crate) fn act(&mut self, word: u64) -> Result<Reply, Refused> {
        let reply = self.machine()?.apply(word, LANE)?;
        self.record.note_events(1);
        Ok(reply)
    }

    /// A worker's step: finishes the stage that it has in its hands, if it has one, and claims the lowest ready stage, if there is one.
    #[inline(always)]
    pub(crate) fn step(&mut self, who: u8, task: &mut Task) -> Result<(), Refused> {
        let held = task.stage().is_some();
        self.machine()?.step(who, LANE, task)?;
        self.record.note_events(u64::from(held) + u64::from(task.stage().is_some()));
        Ok(())
    }

    /// Lets a stage end by others.
    pub(crate) fn join(&mut self, stage: u16, of: &[u16], how: How) -> Result<(), Refused> {
        let machine = self.machine()?;
        match how {
            How::Follows => machine.follow(stage, of[0])?,
            How::Joins(wanted) => machine.join(stage, wanted, of)?,
            How::IsCancelled => machine.cancel_with(stage, of[0])?,
        }
        self.joins.push(Joined { stage, of: of.into(), how });
        Ok(())
    }

    /// Sets a deadline of a stage, at which that gets the value of its own number, or times out with the code of its error.
    pub(crate) fn set_deadline(&mut self, stage: u16, moment: u64, gives: bool) -> Result<(), Refused> {
        let limit = if gives { Limit::Give(Value::Int(i32::from(stage))) } else { Limit::Timeout(code_of_error(stage)) };
        self.machine()?.set_deadline(stage, moment, limit)
    }

    /// Lets time pass up to a moment. A clock may have told of a later one by now. Where memory is refused, what was due before that is told.
    pub(crate) fn pass_time_to(&mut self, moment: u64) -> Result<(), Refused> {
        let passed = self.passed.max(moment);
        self.passed = passed;
        let told = self.machine_if_awake().map_or(Ok(()), |machine| machine.pass_time_to(passed));
        self.note_own_events();
        told
    }

    /// Counts what the machine has done by itself: as time passed, or since stages end by others.
    pub(crate) fn note_own_events(&mut self) {
        if let Some(machine) = &mut self.machine {
            let done = machine.word_count().expect("the words are there");
            self.record.note_events((done - self.record.event_count()) as u64);
        }
    }

    /// The number of stages that the last call settled.
    #[inline]
    pub(crate) fn settled_count(&self) -> usize {
        self.machine.as_ref().map_or(0, |machine| machine.todo().settled_count())
    }

    /// A stage that the last call settled.
    #[inline]
    pub(crate) fn settled_at(&self, at: usize) -> SettledStage {
        self.machine.as_ref().expect("it has settled a stage").todo().settled_at(at)
    }

    /// The moment to which time is to pass next.
    #[inline]
    pub(crate) fn next_moment(&self) -> Option<u64> {
        self.machine.as_ref()?.todo().next_moment()
    }

    /// Whether more stages are ready than jobs are on their way.
    #[inline]
    pub(crate) fn wants_job(&self) -> bool {
        self.machine.as_ref().map_or(false, |machine| machine.todo().wanted(LANE) > 0)
    }

    /// A job is on its way.
    pub(crate) fn start_job(&mut self) {
        self.machine.as_mut().expect("it wants a job").start_jobs(LANE, 1);
    }

    /// A job has come, or never will.
    #[inline]
    pub(crate) fn begin_job(&mut self) {
        self.machine.as_mut().expect("it rests only where no job is on its way").begin_job(LANE);
    }

    /// The lowest stage from a number on that is ready.
    pub(crate) fn lowest_ready(&mut self, from: u16) -> Option<u16> {
        self.machine_if_awake()?.lowest_ready(from).expect("the machine is there")
    }

    /// What an open stage is.
    pub(crate) fn state(&mut self, stage: u16) -> State {
        self.machine_if_awake().expect("a stage is open").stage(stage).expect("the stage is there").state
    }

    /// A stage was shown as settled.
    #[inline]
    pub(crate) fn note_shown(&mut self) {
        self.settled += 1;
    }

    /// Keeps the words alone of a large request whose stages are all settled, once no job is on its way.
    #[inline]
    pub(crate) fn rest_if_over(&mut self) {
        if self.settled == self.stages && self.stages >= self.rests_from {
            self.rest();
        }
    }

    /// Attaches a stage, whose function has the stage's own number, and gives the number.
    #[inline]
    pub(crate) fn attach(&mut self, who: u8, form: WordForm, of: &[u16], has_function: bool) -> Result<u16, Refusal> {
        let number = self.stages;
        if number == MOST_STAGES {
            return Err(Refusal::Full);
        }
        let word = word::encode_attach(who, form, of, if has_function { number } else { 0 });
        let machine = self.machine().map_err(|_| Refusal::NoLedger)?;
        loop {
            match machine.apply(word, LANE) {
                Ok(_) => break,
                Err(Refused::NO_ROOM) => machine.grow().map_err(|_| Refusal::NoLedger)?,
                Err(Refused::NO_MEMORY) => return Err(Refusal::NoLedger),
                Err(why) => unreachable!("{why}, of a form and sources that are there"),
            }
        }
        self.record.note_events(1);
        self.stages = number + 1;
        Ok(number)
    }

    /// Attaches stages that wait for all of these or for one of them, and gives the number of the last.
    pub(crate) fn gather(&mut self, who: u8, form: cf_graph::Form, of: &[u16]) -> Result<u16, Refusal> {
        if of.len() > usize::from(self.room_left()) + 1 || self.room_left() == 0 {
            return Err(Refusal::Full);
        }
        let machine = self.machine().map_err(|_| Refusal::NoLedger)?;
        let root = loop {
            match machine.gather(who, form, of) {
                Err(Refused::NO_ROOM) => machine.grow().map_err(|_| Refusal::NoLedger)?,
                Err(Refused::NO_MEMORY) => return Err(Refusal::NoLedger),
                gathered => break gathered.expect("a form, and sources that are there"),
            }
        };
        self.record.note_events(u64::from(root + 1 - self.stages));
        self.stages = root + 1;
        Ok(root)
    }

    /// How many stages can be attached yet.
    pub(crate) fn room_left(&self) -> u16 {
        MOST_STAGES - self.stages
    }

    /// Of each stage those by which it ends, but for one to which it is linked.
    pub(crate) fn dependencies(&mut self) -> Vec<Vec<u16>> {
        let attached = self.words().into_iter().map(word::decode).filter(|it| it.kind == word::ATTACH);
        let mut hangs: Vec<Vec<u16>> = attached.map(|it| it.attach_parts().1).collect();
        self.joins.iter().filter(|it| it.how != How::IsCancelled).for_each(|it| hangs[usize::from(it.stage)].extend(&it.of));
        hangs
    }

    pub(crate) fn words(&mut self) -> Vec<u64> {
        match &mut self.machine {
            Some(machine) => machine.words().expect("the words are there"),
            None => self.words.clone(),
        }
    }
}

impl Drop for Ledger {
    fn drop(&mut self) {
        let moments = self.record.take_room();
        self.keep_machine(moments);
    }
}

/// How many machines a thread keeps, and for how many stages they have room together: one takes less to start again than a new one to be opened
/// and to grow.
const MOST_KEPT: usize = 8;
const MOST_ROOM: u16 = MOST_KEPT as u16 * SLOTS;

thread_local! {
    /// The machines of requests that ended on this thread.
    static KEPT: RefCell<Vec<Spare>> = const { RefCell::new(Vec::new()) };
}

/// A machine that was kept, with room for so many stages or more.
fn take_spare(room: u16) -> Option<Spare> {
    let taken = |kept: &RefCell<Vec<Spare>>| {
        let mut kept = kept.borrow_mut();
        let at = kept.iter().rposition(|it| it.room >= room)?;
        Some(kept.swap_remove(at))
    };
    KEPT.try_with(taken).ok().flatten()
}

/// A machine of no stages, which settles what it settles by itself as the clock.
fn open_machine(room: u16) -> Result<Spare, Refused> {
    let machine = match empty_plan()?.as_mut() {
        Some(plan) => Request::new(plan, RequestSizes { room, lanes: LANE + 1, own: CLOCK }, &[])?,
        None => return Err(Refused::NO_MEMORY),
    };
    Ok(Spare { machine, room, moments: Vec::new() })
}

#[cfg(test)]
mod tests {
    use super::*;
    use crate::word::{CANCEL, COMPLETE, SOME};

    fn promise(ledger: &mut Ledger) -> Result<u16, Refusal> {
        ledger.attach(0, WordForm::Source, &[], false)
    }

    /// A few, which are as they were opened, but for the room that they have got.
    #[test]
    fn few_machines_are_kept() {
        let many = |room| (0..2 * MOST_KEPT).map(|_| Ledger::new(room).unwrap()).collect::<Vec<_>>();
        let count = || KEPT.with(|kept| kept.borrow().len());
        drop(many(MOST_ROOM + 1));
        assert_eq!(count(), 0);
        drop(many(MOST_ROOM / 3));
        assert_eq!(count(), 3);
        KEPT.with(|kept| kept.borrow_mut().clear());
        let mut ledgers = many(4);
        for ledger in &mut ledgers {
            promise(ledger).unwrap();
            ledger.record.advance(1);
            promise(ledger).unwrap();
            ledger.record.advance(2);
            assert_eq!((ledger.words().len(), ledger.record.event_count()), (2, 2));
        }
        drop(ledgers);
        assert_eq!(count(), MOST_KEPT);
        let mut again = Ledger::new(3).unwrap();
        assert_eq!((count(), again.room, again.words(), again.record.event_count()), (MOST_KEPT - 1, 4, Vec::new(), 0));
        let large = Ledger::new(5).unwrap();
        assert_eq!((count(), large.room), (MOST_KEPT - 1, 5));
        for stage in 0..=SLOTS {
            assert_eq!(promise(&mut again), Ok(stage));
        }
        drop(again);
        assert_eq!(count(), MOST_KEPT);
        drop(large);
        assert_eq!(count(), MOST_KEPT);
        // What has grown is there for the next that is as large, and so is what a request gave back that rests.
        let mut grown = Ledger::new(SLOTS + 1).unwrap();
        assert_eq!((count(), grown.room, grown.words()), (MOST_KEPT - 1, SLOTS + 1, Vec::new()));
        let mut outcomes = Vec::new();
        for stage in 0..=SLOTS {
            promise(&mut grown).unwrap();
            settle(&mut grown, stage, &mut outcomes);
        }
        assert_eq!((grown.is_resting(), count()), (true, MOST_KEPT));
        drop(grown);
        assert_eq!(count(), MOST_KEPT);
        for _ in 0..=SLOTS {
            let mut next = Ledger::new(SLOTS + 1).unwrap();
            assert_eq!((count(), promise(&mut next), next.words().len()), (MOST_KEPT - 1, Ok(0), 1));
        }
    }

    /// Shows what the last call settled.
    fn show(ledger: &mut Ledger, outcomes: &mut Vec<Option<Outcome>>) {
        outcomes.resize(usize::from(ledger.stages), None);
        for at in 0..ledger.settled_count() {
            let told = ledger.settled_at(at);
            outcomes[usize::from(told.stage)] = Some(told.outcome);
            ledger.note_shown();
        }
        ledger.rest_if_over();
    }

    fn settle(ledger: &mut Ledger, stage: u16, outcomes: &mut Vec<Option<Outcome>>) -> Reply {
        let reply = ledger.act(word::encode(COMPLETE, 0, stage, 0)).unwrap();
        show(ledger, outcomes);
        reply
    }

    /// It keeps its words alone, until something is done to it, and again once it is twice as large.
    #[test]
    fn large_request_that_is_over_rests() {
        let (mut ledger, mut outcomes) = (Ledger::new(1).unwrap(), Vec::new());
        for stage in 0..SLOTS {
            promise(&mut ledger).unwrap();
            settle(&mut ledger, stage, &mut outcomes);
        }
        assert!(ledger.machine.is_some());
        let late = promise(&mut ledger).unwrap();
        assert!(ledger.machine.is_some());
        settle(&mut ledger, late, &mut outcomes);
        assert!(ledger.machine.is_none());

        // It is asked, and goes on resting.
        ledger.pass_time_to(5).unwrap();
        assert_eq!((ledger.settled_count(), ledger.wants_job(), ledger.lowest_ready(0), ledger.next_moment()), (0, false, None, None));
        let events = 2 * usize::from(SLOTS + 1);
        assert_eq!((ledger.words().len(), ledger.dependencies().len()), (events, usize::from(SLOTS + 1)));
        assert!(ledger.machine.is_none());

        // Something is done to it.
        assert_eq!(settle(&mut ledger, late, &mut outcomes), Reply::Flag(false));
        assert!(ledger.machine.is_some());
        assert_eq!(ledger.words().len(), events + 1);
        for stage in SLOTS + 1..2 * (SLOTS + 1) {
            assert!(ledger.machine.is_some(), "{stage}");
            assert_eq!((promise(&mut ledger), settle(&mut ledger, stage, &mut outcomes)), (Ok(stage), Reply::Flag(true)));
        }
        assert!(ledger.machine.is_none());
        assert!(is_replayed(&ledger.words(), &outcomes).unwrap());

        // A stage that it attaches, and one that gathers, go on, too.
        let root = ledger.gather(0, cf_graph::Form::AllOf, &[0, late]).unwrap();
        show(&mut ledger, &mut outcomes);
        assert_eq!((root, ledger.settled, ledger.machine.is_some()), (2 * (SLOTS + 1), ledger.stages, true));
        assert!(is_replayed(&ledger.words(), &outcomes).unwrap());
    }

    /// What another ledger would settle by the same words, or this one by others.
    #[test]
    fn what_differs_does_not_come_again() {
        let mut ledger = Ledger::new(2).unwrap();
        for _ in 0..2 {
            promise(&mut ledger).unwrap();
        }
        let mut outcomes = vec![None; 2];
        for word in [word::encode(COMPLETE, 0, 0, SOME), word::encode(COMPLETE, 0, 0, SOME | 1), word::encode(CANCEL, 0, 1, 0)] {
            ledger.act(word).unwrap();
            show(&mut ledger, &mut outcomes);
        }
        let words = ledger.words();
        assert!(words.len() == 5 && is_replayed(&words, &outcomes).unwrap());
        let comes = |words: &[u64], outcomes: &[Option<Outcome>]| is_replayed(words, outcomes).unwrap_or(false);
        for at in 0..2 {
            let mut other = outcomes.clone();
            other.swap(at, 1 - at);
            other[1 - at] = outcomes[1 - at];
            assert!(!comes(&words, &other), "with {:?}", other[at]);
            other[at] = None;
            assert!(!comes(&words, &other), "without {:?}", outcomes[at]);
        }
        for at in [0, 1, 2, 4] {
            assert!(!comes(&[&words[..at], &words[at + 1..]].concat(), &outcomes), "without word {at}");
        }
        assert!(!comes(&words, &outcomes[..1]) && !comes(&[&words[..], &[0]].concat(), &outcomes));
    }
}
