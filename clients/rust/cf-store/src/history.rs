//! What happened to a request, told as texts by the library. The row has no times, and names sessions by their numbers.
use crate::error::{Failed, StoreError};
use crate::host::Host;
use crate::plan;
use crate::store::{Opened, Store};
use crate::view::retrying_for_a_minute;
use cf_graph::{Answer, Call, Entry, Event, Failure, Label, Refused, Tale, TaleFormat, Value};
use serde_json::Value as Json;
use std::collections::{BTreeMap, BTreeSet};

/// How many characters are told of a value or an error.
const LONGEST: usize = 60;

/// The words of a request until some moment, in their one order. It stays as it is while the request goes on.
///
/// What names and texts of others hold is told in one line, in which a line break is written `\n`.
#[derive(Clone, Debug)]
pub struct History {
    opened: Opened,
    entries: Vec<Entry>,
    /// How many stages were attached.
    attached: u16,
    names: Vec<String>,
    values: Vec<String>,
    errors: Vec<String>,
    /// What sessions are called, as far as that is known.
    sessions: BTreeMap<u64, String>,
}

/// What a history is to tell something of.
#[derive(Clone, Copy, Debug)]
#[non_exhaustive]
pub enum HistoryItem<'a> {
    /// What a stage was given.
    Value(&'a Json),
    /// What it was failed with.
    Error(&'a Failed),
}

/// What the payload of a word is, if it has one that its number names.
enum Names {
    Value,
    Error,
    Stage,
}

impl HistoryItem<'_> {
    /// All of it, cut to 60 characters.
    pub fn full_text(self) -> String {
        let text = match self {
            HistoryItem::Value(value) => value.to_string(),
            HistoryItem::Error(failed) => failed.to_string(),
        };
        match text.char_indices().nth(LONGEST) {
            None => text,
            Some(_) => text.chars().take(LONGEST - 3).chain("...".chars()).collect(),
        }
    }
}

impl History {
    pub(crate) fn new(store: &dyn Store, host: &dyn Host, opened: Opened, tells: impl Fn(HistoryItem<'_>) -> String) -> Result<History, StoreError> {
        let (name, number) = (opened.name.clone(), opened.number);
        let entries = retrying_for_a_minute(host, || store.read(&name, number, 0))?;
        let names = plan::read_plan(&opened.plan, &opened.name)?.stages.into_iter().map(|(_, _, said)| said.name).collect();
        let (values, errors) = (vec![String::new(); entries.len() + 1], vec![String::new(); entries.len() + 1]);
        let mut made = History { opened, entries, attached: 0, names, values, errors, sessions: BTreeMap::new() };
        for (place, entry) in (1..).zip(made.entries.clone()) {
            made.read(place, entry.word, || retrying_for_a_minute(host, || store.payload(&name, number, place)), &tells)?;
        }
        made.tale()?; // (each of its words can be done)
        Ok(made)
    }

    /// The same, in which sessions are called so.
    #[cfg(feature = "testing")]
    pub(crate) fn with_session_names(self, sessions: BTreeMap<u64, String>) -> History {
        History { sessions, ..self }
    }

    /// Takes in what the payload of a word says.
    fn read(
        &mut self,
        place: usize,
        word: u64,
        payload: impl FnOnce() -> Result<Option<Vec<u8>>, StoreError>,
        tells: &impl Fn(HistoryItem<'_>) -> String,
    ) -> Result<(), StoreError> {
        let broken = |why: &dyn std::fmt::Display| StoreError::broken(&self.opened.name, place, why);
        let names = match Event::from_word(word).map_err(|refused| broken(&refused))?.call {
            Call::Complete(_, Value::Int(_)) | Call::Finish(_, Answer::Give(Value::Int(_))) => Names::Value,
            Call::Fail(..) | Call::Finish(_, Answer::Throw(_)) => Names::Error,
            Call::FailAs(_, Failure::TimedOut(named) | Failure::BadAnswer(named)) if named > 0 => Names::Error,
            Call::Attach(..) => Names::Stage,
            _ => return Ok(()),
        };
        let payload = payload()?.ok_or_else(|| broken(&"no payload is there, and a word names it"))?;
        let unreadable = |why: serde_json::Error| broken(&format!("its payload can't be read: {why}"));
        match names {
            Names::Value => self.values[place] = tells(HistoryItem::Value(&serde_json::from_slice(&payload).map_err(unreadable)?)),
            Names::Error => self.errors[place] = tells(HistoryItem::Error(&serde_json::from_slice(&payload).map_err(unreadable)?)),
            Names::Stage => {
                let said = plan::read_stage_spec(&payload, self.names.len()).map_err(|why| broken(&why))?;
                self.names.push(said.name);
                self.attached += 1;
            }
        }
        Ok(())
    }

    /// For people: a line for each event, and one for each stage that it settled.
    pub fn lines(&self) -> Result<String, StoreError> {
        self.tell(TaleFormat::Lines)
    }

    /// For a log: one line.
    pub fn line(&self) -> Result<String, StoreError> {
        self.tell(TaleFormat::Line)
    }

    /// What `cf_look check` judges and `cf_look page` shows, a line of JSON without its end.
    pub fn account(&self) -> Result<String, StoreError> {
        let text = self.tell(TaleFormat::Account)?;
        let mut account: Json = serde_json::from_str(&text).map_err(|error| StoreError::Refused(error.to_string()))?;
        let mut is_shared = false;
        for records in account["callers"].as_array_mut().into_iter().flatten() {
            is_shared |= self.split_by_session(records);
        }
        Ok(if is_shared { account.to_string() } else { text.trim_end().to_owned() })
    }

    /// What `cf run` does again and `cf_look dot` draws, a line of JSON without its end.
    pub fn script(&self) -> Result<String, StoreError> {
        Ok(self.tale()?.text(TaleFormat::Script)?.trim_end().to_owned())
    }

    /// Has each session's records stand by themselves, where several had a caller's number; whether they had.
    fn split_by_session(&self, records: &mut Json) -> bool {
        let (mut sessions, mut order): (BTreeMap<u64, Vec<Json>>, Vec<u64>) = Default::default();
        let mut own = None;
        for record in records.as_array().into_iter().flatten() {
            if record[0] == "did" {
                let place = record[1].as_u64().unwrap_or_default() as usize;
                own = self.entries.get(place.wrapping_sub(1)).map(|entry| entry.session());
            }
            let Some(own) = own else { continue };
            if !sessions.contains_key(&own) {
                order.push(own);
            }
            sessions.entry(own).or_default().push(record.clone());
        }
        let shared = order.len() > 1;
        if shared {
            let each: Vec<_> = order.iter().filter_map(|session| sessions.remove(session)).collect();
            *records = serde_json::json!({ "sessions": each });
        }
        shared
    }

    fn tell(&self, as_what: TaleFormat) -> Result<String, StoreError> {
        let mut tale = self.tale()?;
        tale.say(Label::Name, [&self.opened.name])?;
        tale.say(Label::Stages, &self.names)?;
        tale.say(Label::Callers, self.callers())?;
        tale.say(Label::Values, &self.values)?;
        tale.say(Label::Errors, &self.errors)?;
        Ok(tale.text(as_what)?)
    }

    /// What callers are called: all the names that sessions of a caller's number have.
    fn callers(&self) -> Vec<String> {
        let mut callers: Vec<BTreeSet<&str>> = Vec::new();
        for entry in &self.entries {
            let who = (entry.word >> 48 & 0xff) as usize;
            callers.resize_with(callers.len().max(who + 1), BTreeSet::new);
            callers[who].extend(self.sessions.get(&entry.session()).map(String::as_str));
        }
        let called = |(who, names): (usize, BTreeSet<&str>)| match names.len() {
            0 => format!("session {who}"),
            _ => names.into_iter().collect::<Vec<_>>().join(" or "),
        };
        callers.into_iter().enumerate().map(called).collect()
    }

    fn tale(&self) -> Result<Tale, StoreError> {
        let words: Vec<u64> = self.entries.iter().map(|entry| entry.word).collect();
        let broken = |refused: Refused| StoreError::broken(&self.opened.name, 0, format!("its words can't be done: {refused}"));
        Tale::new(&mut plan::read_plan(&self.opened.plan, &self.opened.name)?.plan, self.attached, &words).map_err(broken)
    }
}
