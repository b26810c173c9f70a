//! Ledgers: one graph under one lock, with the words of all that was done to it.
use crate::event::{reply_of_word, Event};
use crate::handle::Handle;
use crate::plan::Plan;
use crate::refused::{if_there, Refused};
use crate::step::{step_out, task_in, Stepped};
use crate::values::*;
use cf_sys as sys;

/// A graph that keeps the words of all that was done to it and tells which stages each changed. It goes to any thread, and is in one call
/// at a time, since each takes it by `&mut`: threads share it behind a `Mutex`.
///
/// ```
/// use cf_graph::{Call, Event, Form, Ledger, Of, PlanBuilder, State, Value};
/// # fn main() -> Result<(), cf_graph::Refused> {
/// let mut plan = PlanBuilder::new()?.build()?;
/// let mut ledger = Ledger::new(&mut plan, 2)?;
/// ledger.apply(Event { who: 0, call: Call::Attach(Form::Source, Of::None, None) }.word()?)?;
/// ledger.apply(Event { who: 0, call: Call::Attach(Form::Apply, Of::One(0), Some(1)) }.word()?)?;
/// ledger.apply(Event { who: 0, call: Call::Complete(0, Value::Int(3)) }.word()?)?;
/// let changed: Vec<_> = ledger.news().map(|news| (news.stage, news.now.state)).collect();
/// assert_eq!(changed[1], (1, State::Ready));
/// assert_eq!(ledger.words()?.len(), 3);
/// # Ok(())
/// # }
/// ```
#[derive(Debug)]
pub struct Ledger {
    handle: Handle,
    /// The changes of the last word.
    changes: Changes,
}

/// The stages that a word or a finish changed, rising, each as it is now. It keeps its room, so one serves the words of many ledgers.
#[derive(Debug, Default)]
pub struct Changes {
    news: Vec<sys::cf_news>,
    count: usize,
}

/// Where a stage stands.
#[derive(Clone, Copy, PartialEq, Eq, Debug)]
#[non_exhaustive]
pub enum State {
    /// It waits for its sources, or for a call that completes it.
    Pending,
    /// Its function can be claimed.
    Ready,
    /// Its function was claimed, and isn't finished.
    Claimed,
    /// It takes over the outcome of this stage.
    Linked(u16),
    /// It is settled with this outcome.
    Settled(Outcome),
}

/// The state of a stage, and its claim.
#[derive(Clone, Copy, PartialEq, Eq, Debug)]
pub struct Stage {
    /// The stage's state.
    pub state: State,
    /// The caller whose claim of it is open, also if another call has settled it.
    pub who: Option<u8>,
}

/// A stage that a word changed.
#[derive(Clone, Copy, PartialEq, Eq, Debug)]
pub struct News {
    /// The stage's number.
    pub stage: u16,
    /// The stage as it is now.
    pub now: Stage,
}

/// The reason why words make no ledger, and the first word that can't be done.
#[derive(Clone, Copy, PartialEq, Eq, Debug)]
pub struct Misfit {
    /// `NO_WORD`, `NO_STAGE`, `NO_ROOM`, or a refusal that speaks of no word.
    pub why: Refused,
    /// The place of the word, from 0 on, if one is at fault.
    pub place: Option<usize>,
}

/// The room for changed stages at first. A word that changes more is asked about once more, with more room.
const NEWS: usize = 16;

impl Changes {
    /// The number of changed stages.
    #[inline]
    pub fn len(&self) -> usize {
        self.count
    }

    /// Whether nothing was changed.
    #[inline]
    pub fn is_empty(&self) -> bool {
        self.count == 0
    }

    /// The changed stage at an index.
    ///
    /// # Panics
    ///
    /// If there are no more than `at`.
    #[inline]
    pub fn at(&self, at: usize) -> News {
        let news = &self.news[..self.count][at];
        News { stage: news.stage, now: stage_out(news.now) }
    }

    /// All changed stages.
    #[inline]
    pub fn iter(&self) -> impl ExactSizeIterator<Item = News> + '_ {
        self.news[..self.count].iter().map(|news| News { stage: news.stage, now: stage_out(news.now) })
    }

    /// Makes a call that tells of changes: where to, for how many there is room, and where it writes how many they are.
    #[inline]
    pub(crate) fn tell(
        &mut self,
        handle: &mut Handle,
        call: impl FnOnce(*mut sys::cf_handle, *mut sys::cf_news, usize, *mut usize) -> u32,
    ) -> Result<(), Refused> {
        if self.news.is_empty() {
            self.news = vec![sys::cf_news::default(); NEWS];
        }
        self.count = 0;
        let mut count = 0;
        let (news, room) = (self.news.as_mut_ptr(), self.news.len());
        let answer = handle.call(|h| call(h, news, room, &mut count));
        self.count = count;
        answer
    }

    /// Whether there were more changes than room.
    #[inline]
    pub(crate) fn has_untold(&self) -> bool {
        self.count > self.news.len()
    }

    /// Asks for the changes of the word at a place, with more room.
    #[cold]
    pub(crate) fn tell_more(&mut self, handle: &mut Handle, place: usize) -> Result<(), Refused> {
        let mut stages = vec![0; self.count];
        let (first, room) = (stages.as_mut_ptr(), stages.len());
        // SAFETY: alone, pointers: `h` and what is told to are this call's, and `first` points to as many numbers as said.
        handle.tell(|h, told| unsafe { sys::cf_ledger_news(h, place, first, room, told) })?;
        self.news.resize(self.count.next_power_of_two(), sys::cf_news::default());
        for (news, stage) in self.news.iter_mut().zip(stages) {
            // SAFETY: alone, pointers: `h` and what is told to are this call's.
            *news = sys::cf_news { stage, now: handle.tell(|h, told| unsafe { sys::cf_ledger_stage(h, stage, told) })? };
        }
        Ok(())
    }
}

impl Ledger {
    /// Opens an empty ledger of the plan, with room for this many stages that are attached later. `ROOM`, `NO_MEMORY`.
    pub fn new(plan: &mut Plan, room: u16) -> Result<Ledger, Refused> {
        let mut handle = Handle::empty();
        // SAFETY: alone, apart: two handles, and both are this call's.
        plan.0.call(|plan| Refused::code_of(handle.call(|h| unsafe { sys::cf_ledger_new(plan, room, h) })))?;
        Ok(Ledger::with_handle(handle))
    }

    /// Opens a ledger in which these words are done, one after another.
    pub fn from_words(plan: &mut Plan, room: u16, words: &[u64]) -> Result<Ledger, Misfit> {
        let (mut handle, mut place) = (Handle::empty(), usize::MAX);
        let (first, n, at) = (words.as_ptr(), words.len(), &mut place);
        let made = plan.0.call(|plan| {
            // SAFETY: alone, apart, pointers: two handles, and both are this call's; `first` points to n words, and `at` to a local.
            Refused::code_of(handle.call(|h| unsafe { sys::cf_ledger_of(plan, room, first, n, h, at) }))
        });
        made.map_err(|why| Misfit { why, place: (place != usize::MAX).then_some(place) })?;
        Ok(Ledger::with_handle(handle))
    }

    fn with_handle(handle: Handle) -> Ledger {
        Ledger { handle, changes: Changes::default() }
    }

    /// Does the event of a word, writes the word behind the others, and gives the reply. [`news`](Ledger::news) tells what it changed.
    /// `NO_WORD`, `NO_STAGE`, `NO_ROOM`, `NO_MEMORY`: nothing is changed then.
    #[inline]
    pub fn apply(&mut self, word: u64) -> Result<Reply, Refused> {
        let Ledger { handle, changes } = self;
        apply(handle, word, changes)
    }

    /// Does the event of a word, and tells the changes in `changes`.
    #[inline]
    pub fn apply_telling(&mut self, word: u64, changes: &mut Changes) -> Result<Reply, Refused> {
        apply(&mut self.handle, word, changes)
    }

    /// One step of a caller, in one call: finishes the stage that it holds with this answer, and claims the lowest ready stage from the number
    /// `from` on, both of them as words. `changes` tells what the finish changed; the claim changes the stage that is taken alone. `NO_WORD`
    /// where `who` is above 63, `NO_STAGE`, `NOT_HELD`, `NO_MEMORY`: nothing is changed then.
    ///
    /// ```
    /// use cf_graph::{Answer, Args, Call, Changes, Event, Form, Ledger, Of, PlanBuilder, Value};
    /// # fn main() -> Result<(), cf_graph::Refused> {
    /// let mut ledger = Ledger::new(&mut PlanBuilder::new()?.build()?, 2)?;
    /// ledger.apply_event(Event { who: 0, call: Call::Attach(Form::Supply, Of::None, Some(0)) })?;
    /// ledger.apply_event(Event { who: 0, call: Call::Attach(Form::Apply, Of::One(0), Some(1)) })?;
    /// let mut changes = Changes::default();
    /// let first = ledger.step(3, None, 0, &mut changes)?.taken.unwrap();
    /// assert_eq!((first.stage, first.args), (0, Args::None));
    /// let second = ledger.step(3, Some((0, Answer::Give(Value::Int(7)))), 0, &mut changes)?.taken.unwrap();
    /// assert_eq!((second.stage, second.args), (1, Args::One(Value::Int(7))));
    /// assert_eq!(changes.iter().map(|news| news.stage).collect::<Vec<_>>(), [0, 1]);
    /// # Ok(())
    /// # }
    /// ```
    #[inline]
    pub fn step(&mut self, who: u8, held: Option<(u16, Answer)>, from: u16, changes: &mut Changes) -> Result<Stepped, Refused> {
        let mut step = sys::cf_step { who, from, ..sys::cf_step::default() };
        let mut task = task_in(held);
        let told = (&mut step, &mut task);
        // SAFETY: alone, pointers: `h` and what is told to are this call's, and `news` points to as many elements as said.
        match changes.tell(&mut self.handle, |h, news, room, n| unsafe { sys::cf_ledger_step(h, told.0, told.1, news, room, n) }) {
            Ok(()) | Err(Refused::NOTHING) => {}
            Err(refused) => return Err(refused),
        }
        if changes.has_untold() {
            changes.tell_more(&mut self.handle, step.place)?;
        }
        Ok(step_out(held, &task))
    }

    /// Does words one after another, up to the first that can't be done, and says how many were done and why that one wasn't.
    pub fn apply_all(&mut self, words: &[u64]) -> (usize, Result<(), Refused>) {
        let mut done = 0;
        let (first, n, told) = (words.as_ptr(), words.len(), &mut done);
        // SAFETY: alone, pointers: `h` and what is told to are this call's, and `first` points to as many words as said.
        let answer = self.handle.call(|h| unsafe { sys::cf_ledger_apply_all(h, first, n, told) });
        self.changes.count = 0;
        (done, answer)
    }

    /// Starts again without words, with all room free. `NO_MEMORY`.
    pub fn restart(&mut self) -> Result<(), Refused> {
        self.changes.count = 0;
        // SAFETY: alone: `h` is this call's.
        self.handle.call(|h| unsafe { sys::cf_ledger_restart(h) })
    }

    /// The stages that the last word changed, rising, each as it is now.
    #[inline]
    pub fn news(&self) -> impl ExactSizeIterator<Item = News> + '_ {
        self.changes.iter()
    }

    /// The number of words.
    pub fn word_count(&mut self) -> Result<usize, Refused> {
        word_count(&mut self.handle)
    }

    /// All words, in their one order.
    pub fn words(&mut self) -> Result<Vec<u64>, Refused> {
        words(&mut self.handle)
    }

    /// The lowest ready stage from this number on.
    pub fn lowest_ready(&mut self, from: u16) -> Result<Option<u16>, Refused> {
        lowest_ready(&mut self.handle, from)
    }

    /// The state of a stage. `NO_STAGE`.
    pub fn stage(&mut self, number: u16) -> Result<Stage, Refused> {
        stage(&mut self.handle, number)
    }

    /// The number of a stage's function, if it has one. `NO_STAGE`.
    pub fn function(&mut self, stage: u16) -> Result<Option<u16>, Refused> {
        // SAFETY: alone, pointers: `h` and what is told to are this call's.
        if_there(self.handle.tell(|h, told| unsafe { sys::cf_ledger_function(h, stage, told) }))
    }

    /// The number of stages.
    pub fn stage_count(&mut self) -> Result<u16, Refused> {
        stage_count(&mut self.handle)
    }

    /// Makes room for `more` stages, by doing all words again. `ROOM`, `NO_MEMORY`.
    pub fn grow(&mut self, more: u16) -> Result<(), Refused> {
        // SAFETY: alone: `h` is this call's.
        self.handle.call(|h| unsafe { sys::cf_ledger_grow(h, more) })
    }

    /// Does an event, as [`apply`](Ledger::apply) does its word.
    pub fn apply_event(&mut self, event: Event) -> Result<Reply, Refused> {
        self.apply(event.word()?)
    }
}

#[inline]
fn apply(handle: &mut Handle, word: u64, changes: &mut Changes) -> Result<Reply, Refused> {
    let mut reply = sys::cf_reply::default();
    let told = &mut reply;
    // SAFETY: alone, pointers: `h` and what is told to are this call's, and `news` points to as many elements as said.
    changes.tell(handle, |h, news, room, n| unsafe { sys::cf_ledger_apply(h, word, told, news, room, n) })?;
    if changes.has_untold() {
        let last = word_count(handle)? - 1;
        changes.tell_more(handle, last)?;
    }
    Ok(reply_of_word(word, reply))
}

/// How many words there are.
pub(crate) fn word_count(handle: &mut Handle) -> Result<usize, Refused> {
    // SAFETY: alone, pointers: `h` and what is told to are this call's, and there is room for no word.
    handle.tell(|h, told| unsafe { sys::cf_ledger_words(h, 0, std::ptr::null_mut(), 0, told) })
}

// What requests and views of rows are asked, too, which have a ledger.

/// The words of all that was done.
pub(crate) fn words(handle: &mut Handle) -> Result<Vec<u64>, Refused> {
    let mut words = vec![0; word_count(handle)?];
    let (first, room) = (words.as_mut_ptr(), words.len());
    // SAFETY: alone, pointers: `h` and what is told to are this call's, and `first` points to as many words as said.
    handle.tell(|h, told| unsafe { sys::cf_ledger_words(h, 0, first, room, told) })?;
    Ok(words)
}

/// The lowest ready stage from this number on.
pub(crate) fn lowest_ready(handle: &mut Handle, from: u16) -> Result<Option<u16>, Refused> {
    // SAFETY: alone, pointers: `h` and what is told to are this call's.
    if_there(handle.tell(|h, told| unsafe { sys::cf_ledger_ready(h, from, told) }))
}

/// What a stage is.
pub(crate) fn stage(handle: &mut Handle, stage: u16) -> Result<Stage, Refused> {
    // SAFETY: alone, pointers: `h` and what is told to are this call's.
    handle.tell(|h, told| unsafe { sys::cf_ledger_stage(h, stage, told) }).map(stage_out)
}

/// How many stages there are by now.
pub(crate) fn stage_count(handle: &mut Handle) -> Result<u16, Refused> {
    // SAFETY: alone, pointers: `h` and what is told to are this call's.
    handle.tell(|h, told| unsafe { sys::cf_ledger_stages(h, told) })
}

#[inline]
fn stage_out(stage: sys::cf_stage) -> Stage {
    let state = match stage.kind {
        sys::CF_IS_READY => State::Ready,
        sys::CF_IS_CLAIMED => State::Claimed,
        sys::CF_IS_LINKED => State::Linked(stage.target),
        sys::CF_IS_SETTLED => outcome_out(stage.outcome).map_or(State::Pending, State::Settled),
        _ => State::Pending,
    };
    Stage { state, who: u8::try_from(stage.who).ok() }
}

impl std::fmt::Display for Misfit {
    fn fmt(&self, f: &mut std::fmt::Formatter<'_>) -> std::fmt::Result {
        match self.place {
            Some(place) => write!(f, "word {place}: {}", self.why),
            None => self.why.fmt(f),
        }
    }
}

impl std::error::Error for Misfit {}
