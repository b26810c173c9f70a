//! A session's view of one request's row, and its puts of words.
use crate::error::{Error, Failed, StoreError, ABANDONED};
use crate::flow::{Prints, Step};
use crate::host::Host;
use crate::plan::{self, StageSpec};
use crate::sessions::Sessions;
use crate::store::{Opened, Put, Store, Transaction};
use cf_graph::{
    Answer, Args, Call, Cause, Claimed, Entry, Event, Failure, Finished, Form, Of, Outcome, Refused, Reply, Row, RowOpening, State, Value,
};
use serde_json::{Map, Value as Json};
use std::collections::{BTreeMap, BTreeSet};
use std::sync::Arc;
use std::time::Duration;

/// The bits of a token that count.
const COUNT_BITS: u32 = 23;
/// The bits of a session's number.
pub(crate) const SESSION_BITS: u32 = 39;
/// The most stages of a request.
const MOST_STAGES: usize = 4096;
/// The room for attached stages at first.
const ROOM: usize = 8;
/// The number of stage specs that one question reads.
const READ_AT_ONCE: usize = 64;
/// How long a store that doesn't answer is asked again.
pub(crate) const PATIENCE: Duration = Duration::from_secs(60);

/// Payloads by the places of their words.
type Payloads = BTreeMap<usize, Vec<u8>>;

/// A word to put, with its payload. The word's own place names a value or an error, so the call says only that there is one.
pub(crate) struct WantedWord {
    pub(crate) call: Call,
    pub(crate) payload: Option<Vec<u8>>,
}

impl WantedWord {
    /// Reads a word of the library's.
    fn from_word(word: u64, payload: Option<Vec<u8>>) -> Result<WantedWord, StoreError> {
        Ok(WantedWord { call: Event::from_word(word)?.call, payload })
    }
}

/// The call of a word that was done, and its reply.
pub(crate) struct DoneWord {
    pub(crate) call: Call,
    pub(crate) reply: Reply,
}

/// A stage's facts beside the row's graph.
struct StageFacts {
    form: Form,
    of: Vec<u16>,
    /// Its spec, if that was read.
    said: Option<StageSpec>,
    /// The place of the word that attached it, or 0 for one of the plan.
    attached: usize,
    /// The place of the word that settled it, or 0.
    settled: usize,
}

pub(crate) struct RowView {
    pub(crate) opened: Opened,
    pub(crate) session: u64,
    pub(crate) store: Arc<dyn Store>,
    host: Arc<dyn Host>,
    sessions: Arc<Sessions>,
    row: Row,
    stages: Vec<StageFacts>,
    /// The number of the plan's stages.
    planned: usize,
    /// The fingerprints of the plan's steps.
    steps: Prints,
    /// The context of the plan's functions.
    context: Map<String, Json>,
    room: usize,
    /// The number of entries that were taken in.
    seen: usize,
    /// Whether the row was read once. Words of before may be old, and are no signs of life.
    is_read: bool,
    /// Promises that composing stages were linked to, with the places of those words.
    links: BTreeMap<u16, usize>,
    /// Settled composing stages, whose promises may have to be cancelled.
    unlinked: BTreeSet<u16>,
    /// Granted claims of this session's that it found as it read the row.
    found: BTreeMap<u16, Args>,
    /// The arguments of each stage whose claim was granted.
    granted: BTreeMap<u16, Args>,
    /// The tokens of words that may or may not stand, and their places.
    doubt: BTreeMap<u64, usize>,
    /// The payloads that this view put, and those that were read for waiting callers.
    own: Payloads,
}

impl RowView {
    pub(crate) fn new(store: Arc<dyn Store>, host: Arc<dyn Host>, opened: Opened, sessions: Arc<Sessions>) -> Result<RowView, StoreError> {
        let session = sessions.own;
        let plan::SharedPlan { mut plan, flow, stages, context } = plan::read_plan(&opened.plan, &opened.name)?;
        let steps = Prints::new(&flow, &stages);
        // by chance: where two have one session, their tokens differ all the same; and half of all are left at least
        let first = host.random_bits(COUNT_BITS - 1) as u32;
        let mut room = ROOM.min(MOST_STAGES - stages.len());
        let row = loop {
            match Row::new(&mut plan, RowOpening { room: room as u16, first, session }) {
                Err(Refused::ROOM) if room > 0 => room /= 2,
                made => break made?,
            }
        };
        let planned = stages.len();
        let known = |(form, of, said)| StageFacts { form, of, said: Some(said), attached: 0, settled: 0 };
        let (links, unlinked) = Default::default();
        let (found, granted, doubt, own) = Default::default();
        let stages = stages.into_iter().map(known).collect();
        let (seen, is_read) = (0, false);
        Ok(RowView {
            opened,
            session,
            store,
            host,
            sessions,
            row,
            stages,
            planned,
            steps,
            context,
            room,
            seen,
            is_read,
            links,
            unlinked,
            found,
            granted,
            doubt,
            own,
        })
    }

    /// The number of entries that were taken in.
    pub(crate) fn seen_count(&self) -> usize {
        self.seen
    }

    /// The number of stages.
    pub(crate) fn stage_count(&self) -> usize {
        self.stages.len()
    }

    /// Whether a step is of the flow with which the request was begun.
    pub(crate) fn has_step(&self, step: Step) -> bool {
        self.steps.has_step(step)
    }

    /// Whether the request is a flow's.
    pub(crate) fn is_planned(&self) -> bool {
        self.planned > 0
    }

    pub(crate) fn state(&mut self, stage: u16) -> State {
        self.row.stage(stage).map_or(State::Pending, |it| it.state)
    }

    pub(crate) fn is_settled(&self, stage: u16) -> bool {
        self.stages[usize::from(stage)].settled > 0
    }

    /// A stage's form and its sources.
    pub(crate) fn form(&self, stage: u16) -> (Form, &[u16]) {
        let known = &self.stages[usize::from(stage)];
        (known.form, &known.of)
    }

    /// The ready stages, rising.
    #[cfg(feature = "testing")]
    pub(crate) fn ready_stages(&mut self) -> Result<Vec<u16>, StoreError> {
        collect_rising(|from| self.row.lowest_ready(from), |stage| *stage)
    }

    /// The stages whose claim is open, rising, each with the session to which it was granted. Some may be settled already.
    fn claims(&mut self) -> Result<Vec<(u16, u64)>, StoreError> {
        collect_rising(|from| self.row.open_claim(from), |claim| claim.0)
    }

    /// The stages whose function runs somewhere: claimed and not settled, each with the session that has it.
    pub(crate) fn open_claims(&mut self) -> Result<Vec<(u16, u64)>, StoreError> {
        let claims = self.claims()?;
        Ok(claims.into_iter().filter(|(stage, _)| !self.is_settled(*stage)).collect())
    }

    /// The session that has a stage's open claim, if one is open.
    pub(crate) fn holder(&mut self, stage: u16) -> Result<Option<u64>, StoreError> {
        Ok(self.row.open_claim(stage)?.filter(|claim| claim.0 == stage).map(|claim| claim.1))
    }

    /// Whether this session has claimed a stage, and neither finished it nor lost it.
    pub(crate) fn has_claim(&mut self, stage: u16) -> Result<bool, StoreError> {
        Ok(self.row.stage_held_by(self.session, stage)? == Some(stage))
    }

    /// The word that finishes a stage of this session's. None if its claim isn't open.
    pub(crate) fn finish_word(&mut self, stage: u16, answer: Answer, payload: Option<Vec<u8>>) -> Result<Option<WantedWord>, StoreError> {
        let word = self.row.finish_word(stage, answer)?;
        word.map(|word| WantedWord::from_word(word, payload)).transpose()
    }

    /// The lowest stage from a number on that this session could claim behind the finish of what has ended.
    pub(crate) fn next_claim(&mut self, ended: Option<(u16, Answer)>, from: u16) -> Result<Option<u16>, StoreError> {
        Ok(self.row.next_claim(ended, from)?)
    }

    /// The word that fails the lowest stage that a gone session has.
    pub(crate) fn abandon_word(&mut self, session: u64) -> Result<Option<WantedWord>, StoreError> {
        let Some(stage) = self.row.stage_held_by(session, 0)? else { return Ok(None) };
        let failed = Failed::new(ABANDONED, format!("the worker that ran {} is gone, and it may have run", self.stage_spec(stage)?.name));
        let word = self.row.abandon_word(session, stage, self.seen as u32 + 1)?;
        word.map(|word| WantedWord::from_word(word, Some(failed_bytes(&failed)))).transpose()
    }

    /// Takes out a granted claim of this session's that it found as it read the row.
    pub(crate) fn take_found_claim(&mut self) -> Option<(u16, Args)> {
        let stage = *self.found.keys().next()?;
        self.found.remove_entry(&stage)
    }

    /// Whether there is such a claim.
    #[cfg(feature = "testing")]
    pub(crate) fn has_found_claim(&self) -> bool {
        !self.found.is_empty()
    }

    pub(crate) fn put_back_claim(&mut self, stage: u16, args: Args) {
        self.found.insert(stage, args);
    }

    /// Whether there is work without a new word. `runs` says whether this service claims stages.
    pub(crate) fn has_work_left(&mut self, runs: bool) -> bool {
        let has_ready = runs && !matches!(self.row.lowest_ready(0), Ok(None));
        has_ready || !self.links.is_empty() || !self.unlinked.is_empty() || !self.found.is_empty()
    }

    /// Whether all stages are settled, and no claim is open but for those of sessions that are gone.
    pub(crate) fn is_done(&mut self, is_gone: impl Fn(u64) -> bool) -> Result<bool, StoreError> {
        Ok(self.stages.iter().all(|it| it.settled > 0) && self.claims()?.into_iter().all(|(_, session)| is_gone(session)))
    }

    // Reading and putting.

    /// Takes in the words that others have put, and gives what they did.
    pub(crate) fn catch_up(&mut self) -> Result<Vec<DoneWord>, StoreError> {
        let (name, number, seen) = (self.opened.name.clone(), self.opened.number, self.seen);
        let entries = retrying_for_a_minute(&*self.host, || self.store.read(&name, number, seen))?;
        let done = entries.into_iter().map(|entry| self.take_in(entry)).collect();
        self.is_read = true;
        done
    }

    /// Puts words behind all that were taken in, and does them. `decide` chooses them by this view, and is asked again each time others' words came
    /// first. With `opens` the put opens a closed request again. Gives what the words did, which is nothing if none was wanted, and what the words of
    /// others did before.
    pub(crate) fn put_words(
        &mut self,
        opens: bool,
        mut decide: impl FnMut(&mut RowView) -> Result<Vec<WantedWord>, StoreError>,
    ) -> Result<(Vec<DoneWord>, Vec<DoneWord>), StoreError> {
        let mut others = Vec::new();
        loop {
            let wanted = decide(self)?;
            if wanted.is_empty() {
                return Ok((Vec::new(), others));
            }
            let attached = wanted.iter().filter(|it| matches!(it.call, Call::Attach(..))).count();
            self.make_room(attached)?;
            let (entries, payloads) = self.plan_put(wanted)?;
            let put = Put { request: &self.opened.name, number: self.opened.number, at: self.seen, entries: &entries, payloads: &payloads, opens };
            let stands = match self.ask_to_append(put) {
                Ok(stands) => stands.unwrap_or_else(|| entries.clone()),
                Err(error) => {
                    self.leave_in_doubt(&entries)?;
                    return Err(error);
                }
            };
            let Some(first) = stands.first() else {
                self.row.give_up()?;
                return Err(StoreError::Gone(self.opened.name.clone()));
            };
            let landed = self.row.landed(*first)?;
            if landed {
                self.own.extend(payloads);
            }
            let mut done = Vec::with_capacity(stands.len());
            for (number, entry) in stands.into_iter().enumerate() {
                let it = self.take_in(entry)?;
                if landed && number < entries.len() {
                    self.tell_standing(entry.word, &it);
                }
                done.push(it);
            }
            if landed {
                others.extend(done.split_off(entries.len().min(done.len())));
                return Ok((done, others));
            }
            others.extend(done);
        }
    }

    /// Asks the store to append a put. If it refuses after an answer was lost, the put may stand all the same: then this reads its place, and gives
    /// `Unknown` as long as nothing stands there.
    fn ask_to_append(&self, put: Put<'_>) -> Result<Option<Vec<Entry>>, StoreError> {
        let mut is_known = true;
        retrying_for_a_minute(&*self.host, || {
            let told = self.store.append(put);
            let Err(StoreError::Refused(why)) = told else {
                is_known &= !matches!(told, Err(StoreError::Unknown(_)));
                return told;
            };
            if is_known {
                return Err(StoreError::Refused(why));
            }
            let stands = self.store.read(put.request, put.number, put.at)?;
            if stands.is_empty() {
                return Err(StoreError::Unknown(why));
            }
            Ok(Some(stands))
        })
    }

    /// Puts a word within a transaction, and commits it. False if another word stands at its place.
    pub(crate) fn put_within(&mut self, transaction: &mut dyn Transaction, wanted: WantedWord) -> Result<bool, StoreError> {
        let (entries, payloads) = self.plan_put(vec![wanted])?;
        let (name, number) = (&self.opened.name, self.opened.number);
        let put = Put { request: name, number, at: self.seen, entries: &entries, payloads: &payloads, opens: false };
        let stands = transaction.append(put).and_then(|landed| if landed { transaction.commit().map(|()| true) } else { Ok(false) });
        match stands {
            Ok(true) => {
                self.row.landed(entries[0])?;
                self.own.extend(payloads);
                let done = self.take_in(entries[0])?;
                self.tell_standing(entries[0].word, &done);
                Ok(true)
            }
            Ok(false) => self.row.give_up().map(|()| false).map_err(StoreError::from),
            Err(error) => {
                self.leave_in_doubt(&entries)?;
                Err(error)
            }
        }
    }

    /// Gives up a put that may stand, and remembers its tokens until the words at its places are read.
    fn leave_in_doubt(&mut self, entries: &[Entry]) -> Result<(), StoreError> {
        self.row.give_up()?;
        self.doubt.extend(entries.iter().enumerate().map(|(k, entry)| (entry.token, self.seen + 1 + k)));
        Ok(())
    }

    fn plan_put(&mut self, wanted: Vec<WantedWord>) -> Result<(Vec<Entry>, Payloads), StoreError> {
        let who = self.row.caller_number()?;
        let (mut words, mut payloads) = (Vec::with_capacity(wanted.len()), Payloads::new());
        for (place, it) in (self.seen + 1..).zip(wanted) {
            words.push(Event { who, call: name_payload(it.call, place, it.payload.is_some()) }.word()?);
            payloads.extend(it.payload.map(|payload| (place, payload)));
        }
        let first = self.row.plan_put(&words)?;
        Ok((words.into_iter().zip(first..).map(|(word, token)| Entry { word, token }).collect(), payloads))
    }

    /// Takes in the entry that stands behind all others.
    fn take_in(&mut self, entry: Entry) -> Result<DoneWord, StoreError> {
        let place = self.seen + 1;
        let broken = |refused: Refused| StoreError::broken(&self.opened.name, place, format!("the word {} can't be done: {refused}", entry.word));
        let call = Event::from_word(entry.word).map_err(broken)?.call;
        if matches!(call, Call::Attach(..)) {
            self.make_room(1)?;
        }
        self.note_session(entry, call)?;
        let broken = |refused: Refused| StoreError::broken(&self.opened.name, place, format!("the word {} can't be done: {refused}", entry.word));
        let reply = self.row.take_in(entry).map_err(broken)?;
        self.seen = place;
        let is_own = self.doubt.remove(&entry.token).is_some();
        match (call, reply) {
            (Call::Attach(form, of, _), Reply::Attached(Some(_))) => {
                self.stages.push(StageFacts { form, of: sources_of(of), said: None, attached: place, settled: 0 });
            }
            (Call::Claim(stage), Reply::Claimed(Claimed::Granted(args))) => {
                self.granted.insert(stage, args);
                if is_own {
                    self.found.insert(stage, args);
                }
            }
            (Call::Finish(_, Answer::Link(to)), Reply::Finished(Finished::Won)) => {
                self.links.insert(to, place);
            }
            _ => {}
        }
        self.doubt.retain(|_, its| *its > place); // what was to stand here and doesn't never will
        self.take_in_changes(place);
        let done = DoneWord { call, reply };
        if is_own {
            self.tell_standing(entry.word, &done);
        }
        Ok(done)
    }

    /// Notes what a new word tells of sessions: its session is there. If it fails a stage of this session, that one may take this one for gone.
    fn note_session(&mut self, entry: Entry, call: Call) -> Result<(), StoreError> {
        let session = entry.session();
        if session == self.session || !self.is_read {
            return Ok(());
        }
        self.sessions.note_word_of(session, self.host.now());
        if matches!(call, Call::Fail(stage, _) if self.has_claim(stage)?) {
            self.sessions.note_given_up();
        }
        Ok(())
    }

    /// Tells the host that a word of this view's stands, the last one.
    fn tell_standing(&self, word: u64, done: &DoneWord) {
        let granted = match (done.call, done.reply) {
            (Call::Claim(stage), Reply::Claimed(Claimed::Granted(_))) => Some(stage),
            _ => None,
        };
        self.host.note_standing(&self.opened.name, self.seen, word, granted);
    }

    /// Notes the stages that the last entry settled.
    fn take_in_changes(&mut self, place: usize) {
        for news in self.row.news() {
            let known = &mut self.stages[usize::from(news.stage)];
            if known.settled > 0 || !matches!(news.now.state, State::Settled(_)) {
                continue;
            }
            known.settled = place;
            if matches!(known.form, Form::Compose | Form::ExceptionallyCompose) {
                self.unlinked.insert(news.stage);
            }
        }
    }

    /// Makes room for at least this many stages more.
    fn make_room(&mut self, least: usize) -> Result<(), StoreError> {
        let many = self.stages.len();
        if many + least <= self.planned + self.room {
            return Ok(());
        }
        let mut more = (3 * many + least).min(MOST_STAGES - self.planned - self.room);
        while more >= least {
            match self.row.grow(more as u16) {
                Err(Refused::ROOM) => more /= 2,
                grown => {
                    grown?;
                    self.room += more;
                    return Ok(());
                }
            }
        }
        Err(StoreError::Full)
    }

    // What the row's numbers stand for.

    /// A stage's spec: its name, and its function's name and version.
    pub(crate) fn stage_spec(&mut self, stage: u16) -> Result<StageSpec, StoreError> {
        if self.stages[usize::from(stage)].said.is_none() {
            self.read_stage_specs(stage)?;
        }
        let known = &self.stages[usize::from(stage)];
        match &known.said {
            Some(said) => Ok(said.clone()),
            None => {
                plan::read_stage_spec(&self.payload(known.attached)?, usize::from(stage)).map_err(|why| self.unreadable_payload(known.attached, &why))
            }
        }
    }

    /// The stage whose function a further try calls. None if the stage isn't one.
    pub(crate) fn retried_stage(&mut self, stage: u16) -> Result<Option<u16>, StoreError> {
        let (mut first, mut last) = (None, stage);
        while let Some(before) = self.stage_spec(last)?.again.filter(|it| *it < last) {
            (first, last) = (Some(before), before);
        }
        Ok(first)
    }

    /// Finds the first attached stage of this form, sources and spec, other than those in `taken`.
    pub(crate) fn find_attached(&mut self, form: Form, of: Of, said: &StageSpec, taken: &BTreeSet<u16>) -> Result<Option<u16>, StoreError> {
        let of = sources_of(of);
        for stage in (self.planned..self.stages.len()).map(|it| it as u16).filter(|it| !taken.contains(it)) {
            let known = &self.stages[usize::from(stage)];
            if known.form == form && known.of == of && self.stage_spec(stage)?.is_alike(said) {
                return Ok(Some(stage));
            }
        }
        Ok(None)
    }

    /// Reads the specs of a stage and of those behind it, many by one question of the store.
    fn read_stage_specs(&mut self, stage: u16) -> Result<(), StoreError> {
        let unread = (stage..self.stages.len() as u16).filter(|it| self.stages[usize::from(*it)].said.is_none());
        let wanted: Vec<_> = unread.take(READ_AT_ONCE).map(|it| (it, self.stages[usize::from(it)].attached)).collect();
        let others: Vec<usize> = wanted.iter().map(|it| it.1).filter(|place| !self.own.contains_key(place)).collect();
        let ask = || self.store.payloads(&self.opened.name, self.opened.number, &others);
        let told = if others.is_empty() { Vec::new() } else { retrying_for_a_minute(&*self.host, ask)? };
        let read: Payloads = others.into_iter().zip(told).filter_map(|(place, it)| Some((place, it?))).collect();
        for (stage, place) in wanted {
            let payload = self.own.get(&place).or_else(|| read.get(&place));
            self.stages[usize::from(stage)].said = payload.and_then(|it| plan::read_stage_spec(it, usize::from(stage)).ok());
        }
        Ok(())
    }

    /// The place of the word that attached a stage, or 0 for one of the plan.
    pub(crate) fn attached_place(&self, stage: u16) -> usize {
        self.stages[usize::from(stage)].attached
    }

    /// The context of the plan's functions.
    pub(crate) fn context(&self) -> &Map<String, Json> {
        &self.context
    }

    /// The context of a stage's function.
    pub(crate) fn carried_context(&mut self, stage: u16) -> Result<Map<String, Json>, StoreError> {
        if usize::from(stage) < self.planned {
            return Ok(self.context.clone());
        }
        Ok(self.stage_spec(stage)?.context.unwrap_or_default())
    }

    fn unreadable_payload(&self, place: usize, why: &dyn std::fmt::Display) -> StoreError {
        StoreError::broken(&self.opened.name, place, format!("its payload can't be read: {why}"))
    }

    /// The payload of a word that names one.
    pub(crate) fn payload(&self, place: usize) -> Result<Vec<u8>, StoreError> {
        if let Some(own) = self.own.get(&place) {
            return Ok(own.clone());
        }
        let read = retrying_for_a_minute(&*self.host, || self.store.payload(&self.opened.name, self.opened.number, place))?;
        read.ok_or_else(|| missing_payload(&self.opened.name, place))
    }

    /// The place of a settled stage's payload, if that has yet to be read.
    pub(crate) fn unread_place(&mut self, stage: u16) -> Option<usize> {
        let place = match self.state(stage) {
            State::Settled(Outcome::Value(Value::Int(place))) => place as u32 as usize,
            State::Settled(Outcome::Fault { cause: Cause::Thrown(place) | Cause::TimedOut(place), .. }) => place as usize,
            _ => 0,
        };
        Some(place).filter(|it| *it > 0 && !self.own.contains_key(it))
    }

    /// Keeps a payload that was read.
    pub(crate) fn keep_payload(&mut self, place: usize, payload: Vec<u8>) {
        self.own.insert(place, payload);
    }

    pub(crate) fn read_value(&self, value: Value) -> Result<Json, StoreError> {
        match value {
            Value::Nil => Ok(Json::Null),
            Value::Int(place) => {
                let place = place as u32 as usize;
                serde_json::from_slice(&self.payload(place)?).map_err(|why| self.unreadable_payload(place, &why))
            }
        }
    }

    fn read_failure(&self, place: usize) -> Result<Failed, StoreError> {
        serde_json::from_slice(&self.payload(place)?).map_err(|why| self.unreadable_payload(place, &why))
    }

    /// Reads the result of an outcome.
    pub(crate) fn read_outcome(&self, outcome: Outcome) -> Result<Result<Json, Error>, StoreError> {
        Ok(match outcome {
            Outcome::Value(value) => Ok(self.read_value(value)?),
            Outcome::Fault { cause: Cause::Thrown(place), .. } => Err(self.read_failure(place as usize)?.into_error()),
            Outcome::Fault { cause: Cause::Cancelled, .. } => Err(Error::Cancelled),
            Outcome::Fault { cause: Cause::BadAnswer(_), .. } => Err(Error::BadAnswer),
            Outcome::Fault { cause: Cause::TimedOut(0), .. } => Err(Error::TimedOut(None)),
            Outcome::Fault { cause: Cause::TimedOut(place), .. } => Err(Error::TimedOut(Some(self.read_failure(place as usize)?))),
            Outcome::Fault { cause, .. } => unreachable!("{cause:?} is a cause of another library"),
        })
    }

    /// Reads the result of a stage, if it is settled.
    pub(crate) fn read_end(&mut self, stage: u16) -> Result<Option<Result<Json, Error>>, StoreError> {
        match self.state(stage) {
            State::Settled(outcome) => self.read_outcome(outcome).map(Some),
            _ => Ok(None),
        }
    }

    /// The arguments of a stage's function, if a claim of it was granted.
    pub(crate) fn granted_args(&self, stage: u16) -> Option<Args> {
        self.granted.get(&stage).copied()
    }

    // Relays of composing stages.

    /// The next word that settles a composing stage's promise as the stage that its function returned, or cancels a promise that nobody waits for.
    pub(crate) fn relay_word(&mut self) -> Result<Option<WantedWord>, StoreError> {
        for stage in self.unlinked.iter().copied().collect::<Vec<_>>() {
            let promise = self.stage_spec(stage)?.to.unwrap_or(stage);
            if !self.links.contains_key(&promise) && !self.is_settled(promise) {
                return Ok(Some(WantedWord { call: Call::Cancel(promise), payload: None }));
            }
            self.unlinked.remove(&stage);
        }
        for (promise, place) in self.links.clone() {
            if self.is_settled(promise) {
                self.links.remove(&promise);
                continue;
            }
            let given = self.stage_given(place)?;
            if let State::Settled(outcome) = self.state(given) {
                return self.copying_word(promise, outcome).map(Some);
            }
        }
        Ok(None)
    }

    /// Reads the stage that a composing stage's function returned.
    fn stage_given(&self, place: usize) -> Result<u16, StoreError> {
        let read: Json = serde_json::from_slice(&self.payload(place)?).map_err(|why| self.unreadable_payload(place, &why))?;
        let stage = read["stage"].as_u64().filter(|it| *it < self.stages.len() as u64);
        stage.map(|it| it as u16).ok_or_else(|| self.unreadable_payload(place, &"it names no stage"))
    }

    /// The word that settles a promise as a stage is.
    fn copying_word(&self, promise: u16, outcome: Outcome) -> Result<WantedWord, StoreError> {
        let wanted = |call, payload| Ok(WantedWord { call, payload });
        // A time-out or a bad answer without a code has no payload.
        let given = |place: u32| if place > 0 { self.payload(place as usize).map(Some) } else { Ok(None) };
        match outcome {
            Outcome::Value(Value::Nil) => wanted(Call::Complete(promise, Value::Nil), None),
            Outcome::Value(Value::Int(place)) => wanted(Call::Complete(promise, Value::Nil), Some(self.payload(place as u32 as usize)?)),
            Outcome::Fault { cause: Cause::Cancelled, wrapped: false } => wanted(Call::Cancel(promise), None),
            Outcome::Fault { cause: Cause::Cancelled, wrapped: true } => {
                wanted(Call::Fail(promise, 0), Some(failed_bytes(&Failed::new("CancelledError", ""))))
            }
            Outcome::Fault { cause: Cause::Thrown(place), .. } => wanted(Call::Fail(promise, 0), Some(self.payload(place as usize)?)),
            Outcome::Fault { cause: Cause::TimedOut(place), .. } => wanted(Call::FailAs(promise, Failure::TimedOut(0)), given(place)?),
            Outcome::Fault { cause: Cause::BadAnswer(place), .. } => wanted(Call::FailAs(promise, Failure::BadAnswer(0)), given(place)?),
            Outcome::Fault { cause, .. } => unreachable!("{cause:?} is a cause of another library"),
        }
    }
}

fn sources_of(of: Of) -> Vec<u16> {
    match of {
        Of::None => vec![],
        Of::One(first) => vec![first],
        Of::Two(first, second) => vec![first, second],
    }
}

/// Collects the answers of a question for the lowest item from a number on.
fn collect_rising<T>(mut ask: impl FnMut(u16) -> Result<Option<T>, Refused>, number: impl Fn(&T) -> u16) -> Result<Vec<T>, StoreError> {
    let (mut told, mut from) = (Vec::new(), 0);
    while let Some(it) = ask(from)? {
        from = number(&it) + 1;
        told.push(it);
    }
    Ok(told)
}

/// The error for a word that names a payload that isn't there.
pub(crate) fn missing_payload(request: &str, place: usize) -> StoreError {
    StoreError::broken(request, place, "no payload is there, and a word names it")
}

/// An error as bytes.
pub(crate) fn failed_bytes(failed: &Failed) -> Vec<u8> {
    serde_json::to_vec(failed).unwrap_or_else(|_| br#"{"error":"Error","text":"(it can't be written)"}"#.to_vec())
}

/// The call of a word, whose value or error is named by the word's place if it has a payload. (A finish names its own already.)
fn name_payload(call: Call, place: usize, has_payload: bool) -> Call {
    if !has_payload {
        return call;
    }
    match call {
        Call::Complete(stage, _) => Call::Complete(stage, Value::Int(place as i32)),
        Call::Fail(stage, _) => Call::Fail(stage, place as u32),
        Call::FailAs(stage, Failure::TimedOut(_)) => Call::FailAs(stage, Failure::TimedOut(place as u32)),
        Call::FailAs(stage, Failure::BadAnswer(_)) => Call::FailAs(stage, Failure::BadAnswer(place as u32)),
        other => other,
    }
}

/// Makes a store's call again while the store doesn't answer, for a minute at most. The call must be one that may be made twice.
pub(crate) fn retrying_for_a_minute<T>(host: &dyn Host, mut call: impl FnMut() -> Result<T, StoreError>) -> Result<T, StoreError> {
    let (until, mut pause) = (host.now() + PATIENCE, Duration::from_millis(10));
    loop {
        match call() {
            Err(StoreError::Unknown(why)) if host.now() > until => return Err(StoreError::Unknown(why)),
            Err(StoreError::Unknown(_)) => host.sleep(pause),
            told => return told,
        }
        pause = (pause * 2).min(Duration::from_millis(500));
    }
}
