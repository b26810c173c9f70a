//! Views of rows: the words in a store as one session knows them.
use crate::event::reply_of_word;
use crate::handle::Handle;
use crate::ledger::{self, Changes, News, Stage};
use crate::plan::Plan;
use crate::refused::{if_there, Refused};
use crate::step::task_in;
use crate::values::{Answer, Reply};
use cf_sys as sys;

/// The bits of a token that count. Those above are the session.
const COUNT_BITS: u32 = 23;

/// An entry of a row: a word, and the token that says who put it.
#[derive(Clone, Copy, PartialEq, Eq, Hash, Debug)]
pub struct Entry {
    /// The word of an event.
    pub word: u64,
    /// The session, times 2^23, and a count.
    pub token: u64,
}

impl Entry {
    /// The session that put it.
    pub fn session(self) -> u64 {
        self.token >> COUNT_BITS
    }
}

/// The sizes and numbers of a view.
#[derive(Clone, Copy, PartialEq, Eq, Debug)]
pub struct RowOpening {
    /// How many stages may be attached later.
    pub room: u16,
    /// The first count of the session's tokens, 0 to 2^23. Draw it by chance, so that the tokens of two views of one session differ.
    pub first: u32,
    /// The session's number, below 2^39. Draw it by chance, so that no two sessions have one number.
    pub session: u64,
}

/// A session's view of a row in a store: a ledger of the entries that it has taken in, and the put that is under way. It does no I/O: its owner asks
/// the store, and passes on the answers. It goes to any thread, and is in one call at a time.
///
/// The store puts a group of entries whole or not at all, and only where none stands yet; it keeps what it has answered; and what it gives to
/// read is the row, or a beginning of it. Then all sessions see one order of events, whatever answers are lost, repeated or late.
///
/// ```
/// use cf_graph::{Answer, Call, Entry, Event, Form, Of, PlanBuilder, Row, RowOpening, Value};
/// # fn main() -> Result<(), cf_graph::Refused> {
/// let mut plan = PlanBuilder::new()?;
/// plan.stage(Form::Source, &[], None)?;
/// let mut plan = plan.build()?;
/// let mut row = Row::new(&mut plan, RowOpening { room: 0, first: 7, session: 700 })?;
/// let word = Event { who: row.caller_number()?, call: Call::Complete(0, Value::Int(3)) }.word()?;
/// let entry = Entry { word, token: row.plan_put(&[word])? };
/// // .. the store is asked to put the entry behind the `row.entry_count()?` that were seen, and answers that it stands ..
/// assert!(row.landed(entry)?);
/// row.take_in(entry)?;
/// assert_eq!((row.entry_count()?, entry.session()), (1, 700));
/// assert_eq!((row.open_claim(0)?, row.stage_held_by(700, 0)?, row.abandon_word(700, 0, 1)?), (None, None, None)); // nobody has claimed anything
/// assert_eq!((row.finish_word(0, Answer::Give(Value::Nil))?, row.next_claim(None, 0)?), (None, None));
/// # Ok(())
/// # }
/// ```
#[derive(Debug)]
pub struct Row {
    handle: Handle,
    /// What the last entry changed.
    changes: Changes,
}

impl Row {
    /// Opens a view of the row of a plan's request, without any entries. `ROOM`, `NO_TOKENS` where the session isn't below 2^39 or its first
    /// count is above 2^23, `NO_MEMORY`.
    pub fn new(plan: &mut Plan, opening: RowOpening) -> Result<Row, Refused> {
        let mut handle = Handle::empty();
        let opening = sys::cf_row_opening { room: opening.room, first: opening.first, session: opening.session };
        // SAFETY: alone, apart, pointers: two handles, and both are this call's; `opening` is a local.
        plan.0.call(|plan| Refused::code_of(handle.call(|h| unsafe { sys::cf_row_new(plan, &opening, h) })))?;
        Ok(Row { handle, changes: Changes::default() })
    }

    /// Plans a put of at least one word behind all entries, and gives the token of the first; each further word has the next one. All of them are
    /// of this session's [`caller_number`](Row::caller_number). `UNDER_WAY`, `NO_TOKENS`, `NO_MEMORY`; `NO_WORD` where one stands for no
    /// event, has another number, names a stage that isn't there, or attaches one for which there is no room ([`grow`](Row::grow) makes some).
    ///
    /// # Panics
    ///
    /// Where there is no word.
    pub fn plan_put(&mut self, words: &[u64]) -> Result<u64, Refused> {
        assert!(!words.is_empty(), "a put has a word");
        let (first, n) = (words.as_ptr(), words.len());
        // SAFETY: alone, pointers: `h` and what is told to are this call's, and `first` points to n words.
        self.handle.tell(|h, told| unsafe { sys::cf_row_plan(h, first, n, told) })
    }

    /// Whether the put landed, by the entry that stands at its place. If it is the put's own, all of the put stands there; otherwise nothing of it
    /// stands or ever will. The put is over then, and the entry is still to be [taken in](Row::take_in). False if no put is under way.
    pub fn landed(&mut self, first: Entry) -> Result<bool, Refused> {
        let first = entry_in(first);
        // SAFETY: alone, pointers: `h` and what is told to are this call's, and `first` is a local.
        let landed = if_there(self.handle.tell(|h, told| unsafe { sys::cf_row_met(h, &first, told) }))?;
        Ok(landed == Some(1))
    }

    /// Gives the put up, if there is one. It may stand, now or later.
    pub fn give_up(&mut self) -> Result<(), Refused> {
        // SAFETY: alone: `h` is this call's.
        self.handle.call(|h| unsafe { sys::cf_row_give_up(h) })
    }

    /// Takes in the next entry: does its event, and gives the reply. [`news`](Row::news) tells what it changed. `UNDER_WAY`,
    /// `NO_MEMORY`; `NO_ROOM` where it attaches a stage for which there is no room; `NO_WORD` and `NO_STAGE` where no session can have planned it,
    /// so that the row is broken. Nothing is changed then.
    pub fn take_in(&mut self, entry: Entry) -> Result<Reply, Refused> {
        let Row { handle, changes } = self;
        let (entry, mut reply) = (entry_in(entry), sys::cf_reply::default());
        let told = &mut reply;
        // SAFETY: alone, pointers: `h` and what is told to are this call's, `entry` is a local, and `news` points to as many elements as said.
        changes.tell(handle, |h, news, room, n| unsafe { sys::cf_row_saw(h, &entry, told, news, room, n) })?;
        if changes.has_untold() {
            let last = ledger::word_count(handle)? - 1;
            changes.tell_more(handle, last)?;
        }
        Ok(reply_of_word(entry.word, reply))
    }

    /// The stages that the last entry changed, rising, each as it is now.
    pub fn news(&self) -> impl ExactSizeIterator<Item = News> + '_ {
        self.changes.iter()
    }

    /// Makes room for `more` stages, by doing all words again. `UNDER_WAY`, `ROOM`, `NO_MEMORY`.
    pub fn grow(&mut self, more: u16) -> Result<(), Refused> {
        // SAFETY: alone: `h` is this call's.
        self.handle.call(|h| unsafe { sys::cf_row_grow(h, more) })
    }

    /// The caller's number of this session: that of its entries, or else that of its next put, which others may take before. If others have all 64
    /// numbers, it is one of theirs.
    pub fn caller_number(&mut self) -> Result<u8, Refused> {
        // SAFETY: alone, pointers: `h` and what is told to are this call's.
        self.handle.tell(|h, told| unsafe { sys::cf_row_number(h, told) })
    }

    /// The caller's number of a session. None without an entry of it.
    pub fn caller_number_of(&mut self, session: u64) -> Result<Option<u8>, Refused> {
        // SAFETY: alone, pointers: `h` and what is told to are this call's.
        if_there(self.handle.tell(|h, told| unsafe { sys::cf_row_number_of(h, session, told) }))
    }

    /// The lowest stage from this number on whose claim is open, and the session that has the claim, also if several sessions have its caller's
    /// number. The stage may be settled: a claim is open until its session has finished.
    pub fn open_claim(&mut self, from: u16) -> Result<Option<(u16, u64)>, Refused> {
        // SAFETY: alone, pointers: `h` and what is told to are this call's.
        let told = if_there(self.handle.tell(|h, told: *mut sys::cf_row_claim| unsafe { sys::cf_row_open_claim(h, from, told) }))?;
        Ok(told.map(|claim| (claim.stage, claim.session)))
    }

    /// The lowest open stage from this number on whose open claim a session has.
    pub fn stage_held_by(&mut self, session: u64, from: u16) -> Result<Option<u16>, Refused> {
        // SAFETY: alone, pointers: `h` and what is told to are this call's.
        if_there(self.handle.tell(|h, told| unsafe { sys::cf_row_held(h, session, from, told) }))
    }

    /// The word that fails the lowest stage from this number on that a session has, with this code. Put it if the session is gone.
    pub fn abandon_word(&mut self, session: u64, from: u16, code: u32) -> Result<Option<u64>, Refused> {
        // SAFETY: alone, pointers: `h` and what is told to are this call's.
        if_there(self.handle.tell(|h, told| unsafe { sys::cf_row_abandon(h, session, from, code, told) }))
    }

    /// The word that finishes a stage of this session's with its function's answer. None if the claim isn't open, or is another session's. If the
    /// stage was settled since its claim, the finish is late, and only closes the claim.
    pub fn finish_word(&mut self, stage: u16, answer: Answer) -> Result<Option<u64>, Refused> {
        let task = task_in(Some((stage, answer)));
        // SAFETY: alone, pointers: `h` and what is told to are this call's, and `task` is a local.
        if_there(self.handle.tell(|h, told| unsafe { sys::cf_row_finish(h, &task, told) }))
    }

    /// The lowest stage from this number on that this session could claim next: one that is ready, or will be once the stage that has `ended` is
    /// finished with this answer. The claim is granted right behind the word of [`finish_word`](Row::finish_word), so both are one put.
    pub fn next_claim(&mut self, ended: Option<(u16, Answer)>, from: u16) -> Result<Option<u16>, Refused> {
        let task = task_in(ended);
        // SAFETY: alone, pointers: `h` and what is told to are this call's, and `task` is a local.
        if_there(self.handle.tell(|h, told| unsafe { sys::cf_row_next_claim(h, &task, from, told) }))
    }

    /// The number of entries that were taken in.
    pub fn entry_count(&mut self) -> Result<usize, Refused> {
        ledger::word_count(&mut self.handle)
    }

    /// The words of all entries, in their order.
    pub fn words(&mut self) -> Result<Vec<u64>, Refused> {
        ledger::words(&mut self.handle)
    }

    /// The lowest ready stage from this number on.
    pub fn lowest_ready(&mut self, from: u16) -> Result<Option<u16>, Refused> {
        ledger::lowest_ready(&mut self.handle, from)
    }

    /// The state of a stage. `NO_STAGE`.
    pub fn stage(&mut self, number: u16) -> Result<Stage, Refused> {
        ledger::stage(&mut self.handle, number)
    }

    /// The number of stages.
    pub fn stage_count(&mut self) -> Result<u16, Refused> {
        ledger::stage_count(&mut self.handle)
    }
}

fn entry_in(entry: Entry) -> sys::cf_entry {
    sys::cf_entry { word: entry.word, token: entry.token }
}
