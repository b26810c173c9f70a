//! What histories tell: nothing that a name, a value or an error could forge, as much of values and errors as is wanted, and all that came.
mod common;

use cf::{Describe, Error, History, Inline, Request, Stage};
use common::{Drops, Looks, LONG};
use std::error::Error as StdError;
use std::fmt;
use std::panic::{catch_unwind, panic_any, AssertUnwindSafe};
use std::sync::atomic::{AtomicUsize, Ordering};
use std::sync::mpsc::channel;
use std::sync::{Arc, Mutex};
use std::thread;

/// Ends of lines for somebody, controls, formats, and what stands between the parts of a line.
const ODD: &str = "a\n    0.000 ms  caller completes 9 b\r\u{85}\u{2028}\u{2029}\u{b}\u{c}\u{1b}[2K\u{202e}\u{200b}\u{e0041}; caller fails 9";

/// A request all of whose texts are this one: its own name and a stage's, errors, a panic, names of relays, and what is said of a value.
fn with_texts(text: &'static str) -> Request {
    let recorded = Request::new(text, Inline);
    let other = Request::new(text, Inline);
    let named = recorded.supply(move || text).named(text);
    let failed = recorded.try_supply(move || Err::<i32, _>(text)).named(String::from(text));
    let panicked: Stage<i32> = recorded.supply(move || panic_any(text));
    let relayed = recorded.adopt(&other.supply(move || String::from(text)));
    let composed = named.compose(move |_| other.supply(move || text.to_owned()));
    let both = failed.handle(move |error| error.is_err()).combine(&relayed, move |_, _| vec![text.to_owned()]);
    panicked.fail(text);
    assert!(recorded.promise::<i32>().fail(text) && composed.wait().is_ok() && both.wait().is_ok());
    recorded
}

fn has_odd(text: &str) -> bool {
    text.chars().any(|letter| letter.is_control() || matches!(letter, '\u{2028}' | '\u{2029}' | '\u{202e}'))
}

#[test]
fn no_text_looks_like_an_event() {
    let (plain, odd) = (with_texts("plain").history(), with_texts(ODD).history());
    assert_eq!(plain.words(), odd.words());
    let (lines, odd_lines) = (plain.to_string(), odd.to_string());
    assert_eq!(lines.split('\n').count(), odd_lines.split('\n').count());
    assert!(odd_lines.ends_with('\n') && odd_lines.split('\n').all(|line| !has_odd(line)), "{odd_lines:?}");
    // What isn't seen, and neither ends a line nor turns it, stays.
    let escaped =
        r"a\n    0.000 ms  caller completes 9 b\r\u0085\u2028\u2029\u000b\u000c\u001b[2K\u202e".to_owned() + "\u{200b}\u{e0041}; caller fails 9";
    assert!(odd_lines.starts_with(&format!("{escaped}: ")) && odd_lines.contains(&format!("  caller attaches 0 {escaped}, supply\n")), "{odd_lines}");

    let (line, odd_line) = (plain.line(), odd.line());
    assert!(!has_odd(&odd_line), "{odd_line:?}");
    assert_eq!(line.split("; ").count(), odd_line.split("; ").count());
    assert_eq!(line.split(';').count(), odd_line.split(';').count());
    assert!(odd_line.contains(r"0.000 ms  caller completes 9 b\r"), "{odd_line}");

    assert!(!has_odd(&format!("{odd:?}")) && !format!("{odd:?}").contains('\u{200b}'));
    let account = odd.account();
    assert!(account.ends_with('\n') && !has_odd(account.trim_end()), "{account:?}");
    assert!(!has_odd(&odd.script()) && odd.is_reproducible());
}

/// What reads well stays: blanks, a backslash, letters of all scripts. A `;` is one in a line of its own.
#[test]
fn what_reads_well_stays() {
    let recorded = Request::new("C:\\orders;  17", Inline);
    let price = recorded.promise::<i32>().named("prix en €;  日本");
    assert!(price.fail("no  stock; \\n"));
    let history = recorded.history();
    let told = history.to_string();
    assert!(told.starts_with("C:\\orders;  17: 2 events, 1 stage\n"), "{told}");
    assert!(told.contains("caller fails 0 prix en €;  日本 with no  stock; \\n\n"), "{told}");
    let line = history.line();
    assert!(line.starts_with("C:\\orders\\u003b  17: 2 events, 1 stage in "), "{line}");
    assert!(line.ends_with(" ms; 1 failed: 0 prix en €\\u003b  日本 by no  stock\\u003b \\n; 0 open"), "{line}");
    assert_eq!(line.split("; ").count(), 3);
    assert_eq!(history.names(), ["prix en €;  日本"]);
    assert_eq!(format!("{price:?}"), "Stage(0 prix en €;  日本, error: no  stock; \\n)");
    assert_eq!(format!("{:?}", with_texts("a\nb").promise::<i32>().named("c\nd")), "Stage(9 c\\nd, pending)");
}

#[derive(Debug)]
struct Declined(&'static str);

impl fmt::Display for Declined {
    fn fmt(&self, f: &mut fmt::Formatter<'_>) -> fmt::Result {
        f.write_str(self.0)
    }
}

impl StdError for Declined {}

struct Card(#[allow(dead_code)] String);

/// A request whose values and errors hold a secret, described so.
fn secret(describe: Option<Describe>) -> (Request, Stage<i32>) {
    let mut recorded = Request::new("login", Inline);
    if let Some(describe) = describe {
        recorded = recorded.described(describe);
    }
    let token = recorded.supply(|| String::from("secret token")).named("token");
    let card = token.clone().then(|token| Card(token.clone())).named("card");
    card.clone().then(|_| ()).wait().unwrap();
    drop(card.then(|_| vec![1_u8, 2, 3]).named("bytes"));
    let refused = token.and_then(|_| Err::<i32, _>(Declined("secret card"))).named("refused");
    let panicked = recorded.supply(|| -> i32 { panic!("secret {}", 5) }).named("panicked");
    assert!(refused.clone().then(|n| n + 1).wait().is_err() && panicked.wait().is_err());
    (recorded, refused)
}

/// All texts of a history.
fn texts(history: &History) -> Vec<String> {
    vec![history.to_string(), history.line(), history.account(), history.script(), history.report(), format!("{history:?}")]
}

fn ends(history: &History) -> Vec<String> {
    let told = history.to_string();
    told.lines().filter_map(|line| line.split_once(" ends: ")).map(|(recorded_stage, end)| format!("{}: {end}", recorded_stage.trim())).collect()
}

fn member(account: &str, name: &str) -> String {
    let begin = account.find(&format!("\"{name}\":[")).unwrap() + name.len() + 4;
    account[begin..begin + account[begin..].find(']').unwrap()].to_owned()
}

#[test]
fn all_is_told_if_nothing_is_said() {
    for describe in [None, Some(Describe::All)] {
        let (recorded, refused) = secret(describe);
        let history = recorded.history();
        let told = ends(&history);
        assert_eq!(told[..2], ["0 token: \"secret token\"", "1 card: a value"]);
        assert!(told[2].ends_with(": nil") && told[3] == "3 bytes: a value" && told[4] == "4 refused: secret card", "{told:?}");
        assert_eq!(told[5], "5 panicked: a function panicked: secret 5");
        assert!(history.line().ends_with(" ms; 3 failed: 4 refused by secret card; 0 open"), "{}", history.line());
        assert!(history.to_string().contains("finishes 0 token, which gave \"secret token\"\n"));
        let account = history.account();
        assert_eq!(member(&account, "values"), r#""\u0022secret token\u0022","a value","","a value","","","""#);
        assert_eq!(member(&account, "errors"), r#""","","","","","secret card","a function panicked: secret 5","""#);
        assert_eq!(format!("{refused:?}"), "Stage(4 refused, error: secret card)");
    }
}

#[test]
fn types_are_told_alone() {
    let (recorded, refused) = secret(Some(Describe::Types));
    let history = recorded.history();
    let told = ends(&history);
    assert_eq!(told[..2], ["0 token: String of 12", "1 card: Card"]);
    assert!(told[2].ends_with(": nil"), "{told:?}");
    assert_eq!(told[3..6], ["3 bytes: Vec<u8> of 3", "4 refused: Failed", "5 panicked: Panicked"]);
    let account = history.account();
    assert_eq!(member(&account, "values"), r#""String of 12","Card","","Vec\u003cu8\u003e of 3","","","""#);
    assert_eq!(member(&account, "errors"), r#""","","","","","Failed","Panicked","""#);
    assert_eq!(format!("{refused:?}"), "Stage(4 refused, error: Failed)");
    assert!(texts(&history).iter().all(|text| !text.contains("secret")));
}

#[test]
fn nothing_is_told() {
    let (recorded, refused) = secret(Some(Describe::Nothing));
    let history = recorded.history();
    let told = ends(&history);
    // The value of `()` has no number, and is nil to all.
    let is_nothing = |line: &str| line.trim_end_matches(", passed on").ends_with(": -");
    assert!(told.iter().enumerate().all(|(k, line)| is_nothing(line) || k == 2 && line.ends_with(": nil")) && told.len() == 7, "{told:?}");
    assert_eq!(member(&history.account(), "values"), r#""-","-","","-","","","""#);
    assert_eq!(member(&history.account(), "errors"), r#""","","","","","-","-","""#);
    assert_eq!(format!("{refused:?}"), "Stage(4 refused, error: -)");
    assert!(texts(&history).iter().all(|text| !text.contains("secret")));
}

#[test]
fn a_function_says_what_is_told() {
    let describe = Describe::from_fn(|ended| match ended {
        Ok(value) if value.is::<Card>() => "a\ncard".into(),
        Ok(_) => "v".repeat(70),
        Err(error) => error.downcast_ref::<Declined>().map_or(String::from("other"), |_| "declined;".into()),
    });
    let (recorded, refused) = secret(Some(describe));
    let history = recorded.history();
    let told = ends(&history);
    assert_eq!(told[..2], [format!("0 token: {}", "v".repeat(70)), "1 card: a\\ncard".into()]);
    assert!(told[2].ends_with(": nil"), "{told:?}");
    assert_eq!(told[4..6], ["4 refused: declined;", "5 panicked: other"]);
    assert!(history.line().contains(": 4 refused by declined\\u003b; "), "{}", history.line());
    assert_eq!(member(&history.account(), "errors"), r#""","","","","","declined;","other","""#);
    assert_eq!(format!("{refused:?}"), "Stage(4 refused, error: declined;)");
    assert!(texts(&history).iter().all(|text| !text.contains("secret")));
    // A history stays as it was taken, and the next is told as is wanted then.
    assert_eq!(ends(&recorded.clone().described(Describe::Nothing).history())[1], "1 card: -");
    assert_eq!(ends(&history)[1], "1 card: a\\ncard");
}

/// Functions that are asked for a text, and have none.
#[test]
fn what_cannot_be_told_is_a_question_mark() {
    struct Panics;
    impl fmt::Debug for Panics {
        fn fmt(&self, _: &mut fmt::Formatter<'_>) -> fmt::Result {
            panic!("in a text")
        }
    }
    impl fmt::Display for Panics {
        fn fmt(&self, _: &mut fmt::Formatter<'_>) -> fmt::Result {
            panic_any(Drops)
        }
    }
    impl StdError for Panics {}
    #[derive(Debug)]
    struct Fails;
    impl fmt::Display for Fails {
        fn fmt(&self, _: &mut fmt::Formatter<'_>) -> fmt::Result {
            Err(fmt::Error)
        }
    }
    impl StdError for Fails {}

    let recorded = Request::new("untold", Inline);
    let (panics, fails) = (recorded.try_supply(|| Err::<i32, _>(Panics)), recorded.try_supply(|| Err::<i32, _>(Fails)));
    let unread = recorded.supply(|| -> i32 { panic_any(17_u8) });
    let history = recorded.history();
    let told: Vec<String> = whole(|| ends(&history)).iter().map(|line| line.split_once(": ").unwrap().1.into()).collect();
    assert_eq!(told, ["?", "?", "a function panicked: something that isn't text"]);
    assert_eq!(member(&history.account(), "errors"), r#""","?","?","a function panicked: something that isn\u0027t text""#);
    assert_eq!((format!("{panics:?}"), fails.wait().is_err()), ("Stage(0 histories.rs:".to_owned() + &line_of(&panics) + ", error: ?)", true));
    match unread.wait() {
        Err(Error::Panicked(panic)) => assert_eq!(panic.take_payload().unwrap().downcast_ref::<u8>(), Some(&17)),
        other => panic!("{other:?}"),
    }

    let (recorded, _) = secret(Some(Describe::from_fn(|ended| if ended.is_ok() { panic_any(Drops) } else { "told".into() })));
    let told = ends(&whole(|| recorded.history()));
    assert_eq!((&told[0][..], &told[4][..]), ("0 token: ?", "4 refused: told"));
}

/// Does it, which is not to panic: the payload of this test's panics can't be dropped.
fn whole<T>(act: impl FnOnce() -> T) -> T {
    catch_unwind(AssertUnwindSafe(act)).unwrap_or_else(|payload| {
        std::mem::forget(payload);
        panic!("it panics")
    })
}

fn line_of<T>(recorded_stage: &Stage<T>) -> String {
    let history = recorded_stage.request().history();
    history.names()[0].rsplit(':').next().unwrap().to_owned()
}

/// The function, and the drop of the one before, look at the request whose history is taken.
#[test]
fn a_function_is_asked_under_no_lock() {
    let (ends, end) = channel();
    let thread = thread::spawn(move || {
        let recorded = Request::new("looks", Inline);
        let price = recorded.supply(|| 49);
        let (calls, looks) = (Arc::new(AtomicUsize::new(0)), Looks(price.clone()));
        let counts = Arc::clone(&calls);
        let recorded = recorded.described(Describe::from_fn(move |_| {
            counts.fetch_add(1, Ordering::SeqCst);
            format!("{:?}", looks.0.peek().unwrap().unwrap())
        }));
        assert!(recorded.history().to_string().contains("ends: 49"));
        let asked = calls.load(Ordering::SeqCst);
        assert!(asked > 0);
        assert!(format!("{price:?}").ends_with("value)"));
        drop(recorded.described(Describe::All).history());
        assert_eq!(calls.load(Ordering::SeqCst), asked);
        ends.send(()).unwrap();
    });
    end.recv_timeout(LONG).expect("the request's lock is held");
    thread.join().unwrap();
}

/// A history holds values where all is told of them, and else what is told alone.
#[test]
fn a_history_holds_what_it_tells() {
    for (describe, holds) in [(Describe::All, 1), (Describe::Types, 0), (Describe::Nothing, 0), (Describe::from_fn(|_| "told".into()), 0)] {
        let alive = Arc::new(());
        let recorded = Request::new("holds", Inline).described(describe.clone());
        let (value, error) = (Arc::clone(&alive), Held(Arc::clone(&alive)));
        drop(recorded.supply(move || value));
        drop(recorded.try_supply(move || Err::<i32, _>(error)));
        let history = recorded.history();
        drop(recorded);
        assert_eq!(Arc::strong_count(&alive), 1 + 2 * holds, "{describe:?}");
        let copy = history.clone();
        drop(history);
        assert!(copy.is_reproducible());
        drop(copy);
        assert_eq!(Arc::strong_count(&alive), 1);
    }
}

#[derive(Debug)]
struct Held(#[allow(dead_code)] Arc<()>);

impl fmt::Display for Held {
    fn fmt(&self, f: &mut fmt::Formatter<'_>) -> fmt::Result {
        f.write_str("held")
    }
}

impl StdError for Held {}

/// What came too late stands there with its answer, and holds nothing; what never came stays pending.
#[test]
fn what_is_late_and_what_never_came_is_told() {
    let alive = Arc::new(());
    let recorded = Request::new("late", Inline);
    let (price, never) = (recorded.promise::<Arc<()>>().named("price"), recorded.promise::<i32>().named("never"));
    let behind = never.clone().then(|n| n + 1).named("behind");
    price.complete(Arc::new(())).unwrap();
    let late = price.complete(Arc::clone(&alive)).unwrap_err();
    assert_eq!(Arc::strong_count(&alive), 2);
    drop(late);
    assert!(!price.fail(Held(Arc::clone(&alive))) && !price.cancel());
    assert_eq!(Arc::strong_count(&alive), 1);
    let own: Arc<Mutex<Option<Stage<i32>>>> = Arc::default();
    let of = Arc::clone(&own);
    let gate = recorded.promise::<i32>().named("gate");
    let slow = gate.clone().then(move |n| {
        assert!(of.lock().unwrap().take().unwrap().cancel());
        *n
    });
    let slow = slow.named("slow");
    *own.lock().unwrap() = Some(slow);
    gate.complete(1).unwrap();
    let history = recorded.history();
    let told: Vec<String> = history.to_string().lines().skip(1).map(|line| line[14..].to_owned()).collect();
    assert_eq!(
        told[4..9],
        [
            "0 price ends: a value",
            "caller completes 0 price with a value: too late",
            "caller fails 0 price with an error: too late",
            "caller cancels 0 price: too late",
            "caller attaches 3 gate, source",
        ]
    );
    assert!(told.iter().any(|line| line.ends_with(" finishes 4 slow, which gave a value: too late")), "{told:?}");
    assert_eq!(history.words().len(), 13);
    assert_eq!(history.times().count(), 13);
    assert_eq!(member(&history.account(), "outcomes"), r#""value 0","pending","pending","value 3","fault cancelled raw""#);
    assert!(history.report().ends_with("stage 0 value 0\nstage 1 pending\nstage 2 pending\nstage 3 value 3\nstage 4 fault cancelled raw\n"));
    assert!(history.is_reproducible());
    // It stays as it is.
    let before = texts(&history);
    never.complete(1).unwrap();
    assert_eq!(behind.wait().unwrap(), 2);
    assert_eq!(texts(&history), before);
    assert!(recorded.history().to_string().contains("2 behind ends: 2"));
}

/// Nobody keeps what came too late, and it isn't told as what the stage has.
#[test]
fn what_is_late_is_not_told_as_what_won() {
    let recorded = Request::new("late", Inline);
    let (price, card) = (recorded.promise::<i32>().named("price"), recorded.promise::<i32>().named("card"));
    price.complete(49).unwrap();
    assert!(price.complete(50).is_err() && !price.fail("no price"));
    assert!(card.fail("declined") && !card.fail("stolen") && card.complete(51).is_err());
    let none = recorded.promise::<()>().named("none");
    none.complete(()).unwrap();
    assert!(none.complete(()).is_err());
    let history = recorded.history();
    let told = history.to_string();
    let late: Vec<&str> = told.lines().filter_map(|line| line.strip_suffix(": too late")).map(|line| &line[14..]).collect();
    let price = ["caller completes 0 price with a value", "caller fails 0 price with an error"];
    let card = ["caller fails 1 card with an error", "caller completes 1 card with a value"];
    assert_eq!(late, [&price[..], &card[..], &["caller completes 2 none with nil"]].concat());
    assert_eq!(told.matches(" 49\n").count(), 2);
    // The words themselves stay.
    assert_eq!(history.words()[2], history.words()[3]);
    assert!(history.account().contains(&format!("\"{0}\",\"{0}\"", history.words()[2])));
    assert_eq!(member(&history.account(), "values"), r#""49","","""#);
}

/// An error is told as it is, but cut in lines. So is the name of a stage in an account.
#[test]
fn long_texts_are_cut() {
    let recorded = Request::new("long", Inline);
    let stage = recorded.promise::<i32>().named("n".repeat(70));
    assert!(stage.fail("e".repeat(61)));
    let history = recorded.history();
    let (lines, cut) = (history.to_string(), "e".repeat(57) + "...");
    assert!(lines.ends_with(&format!(" ends: {cut}\n")) && lines.contains(&format!(" 0 {},", "n".repeat(70))), "{lines}");
    assert!(history.line().ends_with(&format!(" by {cut}; 0 open")), "{}", history.line());
    assert_eq!(member(&history.account(), "errors"), format!("\"\",\"{}\"", "e".repeat(61)));
    assert_eq!(member(&history.account(), "names"), format!("\"{}\"", "n".repeat(64)));
}

/// The account says which stages of a request stand in for others of it.
#[test]
fn an_account_has_relays() {
    let recorded = Request::new("relays", Inline);
    let gate = recorded.promise::<i32>();
    let by = recorded.clone();
    let composed = gate.clone().compose(move |_| by.supply(|| 5));
    assert!(!recorded.history().account().contains("relays\":"));
    gate.complete(1).unwrap();
    assert_eq!(composed.wait().unwrap(), 5);
    let account = recorded.history().account();
    assert!(account.ends_with("],\"relays\":[[1,3]]}\n"), "{account}");
}

/// A page is what a program prints that reads the account, if it ends well: `grep page` prints the lines that have this word.
#[test]
fn a_page_is_what_a_program_prints() {
    let (paged, other) = (Request::new("page 9", Inline), Request::new("order 9", Inline));
    let account = paged.history().account();
    assert!(account.contains("page 9"), "{account}");
    assert_eq!(paged.history().page_made_by("grep").unwrap(), account);
    let refused = other.history().page_made_by("grep").unwrap_err();
    assert_eq!(refused.to_string(), "cf_look ended with exit status: 1: ");
}
