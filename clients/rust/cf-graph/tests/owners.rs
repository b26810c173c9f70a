//! What who calls the library owes it (src/handle.rs names each), and safe code that tries to break it: owners that go to threads, whose
//! functions panic or use others, that are forgotten, swapped and freed in any order. Sanitizers and valgrind run these, too:
//! conformance/clients/rust-sanitized.
mod common;

use cf_graph::*;
use common::{completes, given, one_more, row, sizes};
use std::fmt::Debug;
use std::mem::{replace, swap};
use std::panic::{catch_unwind, AssertUnwindSafe};
use std::path::Path;
use std::sync::mpsc::channel;
use std::sync::Mutex;
use std::thread;

/// Compiles for each type that isn't `Clone`: of one that is, two of these would fit.
trait IsNoClone<Which> {
    fn stands() {}
}

impl<T> IsNoClone<()> for T {}
impl<T: Clone> IsNoClone<u8> for T {}

#[test]
fn owners_go_to_threads_and_are_never_two() {
    fn goes<T: Send + Sync + Debug + 'static>() {}
    macro_rules! owners {
        ($($owner:ty)*) => { $(goes::<$owner>(); <$owner as IsNoClone<_>>::stands();)* };
    }
    owners!(PlanBuilder Plan Graph Sweep Ledger Changes Request Todo Task Calls Tale Desk Caller Closed NotClosed);
    <cf_sys::cf_handle as IsNoClone<_>>::stands();
}

/// The function of one stage panics: that stays claimed, what stands behind the handle is whole, and the others go on.
#[test]
fn a_function_that_panics_leaves_its_owner_whole() {
    let mut owned_graph = row(3).graph(0).unwrap();
    owned_graph.complete(0, Value::Int(1)).unwrap();
    let panics = |function, args| if function == 1 { panic!("in a function") } else { one_more(args) };
    assert!(catch_unwind(AssertUnwindSafe(|| owned_graph.work(7, panics))).is_err());
    assert_eq!((owned_graph.outcome(1), owned_graph.outcome(2)), (given(2), Ok(None)));
    assert_eq!(owned_graph.claim(8, 2), Ok(Claimed::Taken));
    assert_eq!(owned_graph.work(8, panics), Ok(0));
    assert_eq!(owned_graph.finish(7, 2, Answer::Give(Value::Int(20))), Ok(Finished::Won));
    assert_eq!(owned_graph.work(8, panics), Ok(1));
    assert_eq!(owned_graph.outcome(3), given(21));

    let (owned_desk, mut owned_callers) = row(3).desk(sizes(2, 20, 20)).unwrap();
    owned_callers[0].complete(0, Value::Int(1)).unwrap();
    assert!(catch_unwind(AssertUnwindSafe(|| owned_callers[0].work(panics))).is_err());
    assert_eq!(owned_callers[1].claim(2), Ok(Claimed::Taken));
    assert_eq!(owned_callers[0].finish(2, Answer::Give(Value::Int(20))), Ok(Finished::Won));
    assert_eq!(owned_callers[1].work(panics), Ok(1));
    assert_eq!(owned_desk.close(owned_callers).unwrap().graph().unwrap().outcome(3), given(21));
}

/// Functions open and free all that there is, also of the plan of the graph that calls them.
#[test]
fn functions_use_other_owners() {
    let mut owned_graph = row(40).graph(0).unwrap();
    let mut owned_plan = owned_graph.plan().unwrap();
    let (owned_desk, mut owned_callers) = owned_plan.desk(sizes(2, 200, 200)).unwrap();
    owned_graph.complete(0, Value::Int(0)).unwrap();
    let mut held: Vec<Graph> = Vec::new();
    let calls = owned_graph.work(1, |function, args| {
        held.push(owned_plan.graph(0).unwrap());
        let other = held[0].plan().unwrap().graph(function).unwrap();
        held.push(other);
        if function % 3 == 0 {
            held.clear();
            drop(replace(&mut owned_plan, row(2)));
        }
        let mut other = owned_plan.graph(1).unwrap();
        other.complete(0, Value::Nil).unwrap();
        let mut inside = 0;
        owned_callers[1].complete(0, Value::Int(0)).unwrap();
        owned_callers[0].lowest_ready().unwrap();
        other
            .work(2, |_, args| {
                inside += 1;
                one_more(args)
            })
            .unwrap();
        assert!(inside > 0);
        one_more(args)
    });
    assert_eq!(calls, Ok(40));
    assert_eq!(owned_graph.outcome(40), given(40));
    assert_eq!(owned_desk.close(owned_callers).unwrap().words().unwrap().len(), 40);
}

/// Lets go of an owner, which is never freed. Where it stands is kept, so that no tool takes it for a leak.
fn forgotten(owner: impl Send + 'static) {
    static FORGOTTEN: Mutex<Vec<Box<dyn Send>>> = Mutex::new(Vec::new());
    FORGOTTEN.lock().unwrap().push(Box::new(owner));
}

/// What is forgotten is never freed, and the others of its kind go on.
#[test]
fn owners_are_forgotten() {
    let mut owned_plan = row(1);
    let (owned_desk, mut owned_callers) = owned_plan.desk(sizes(3, 9, 9)).unwrap();
    forgotten(owned_callers.remove(1));
    assert_eq!(owned_callers[1].complete(0, Value::Int(3)), Ok(true));
    let refused = owned_desk.close(owned_callers).unwrap_err();
    assert_eq!(refused.why, Refused::NOT_ALL);
    let NotClosed { desk: owned_desk, callers: mut owned_callers, .. } = refused;
    assert_eq!(owned_callers[0].read_outcome(0), given(3));
    forgotten(owned_desk);
    drop(owned_callers);

    let (owned_desk, owned_callers) = owned_plan.desk(sizes(2, 9, 9)).unwrap();
    forgotten(owned_desk.close(owned_callers).unwrap());
    let mut owned_graph = owned_plan.graph(0).unwrap();
    owned_graph.complete(0, Value::Int(3)).unwrap();
    let mut sweep = owned_graph.sweep().unwrap();
    assert!(sweep.step(None).unwrap().is_some());
    forgotten(sweep);
    forgotten(Ledger::new(&mut owned_plan, 3).unwrap());
    forgotten(owned_plan.graph(0).unwrap());
    let mut again = owned_plan.graph(0).unwrap();
    forgotten(owned_plan);
    again.complete(0, Value::Int(4)).unwrap();
    assert_eq!(again.work(0, |_, args| one_more(args)), Ok(1));
}

/// Owners change places in the midst of what is done with them. Each keeps what is its own.
#[test]
fn owners_change_places() {
    let (mut short, mut long) = (row(1).graph(0).unwrap(), row(4).graph(0).unwrap());
    for (owned_graph, number) in [(&mut short, 1), (&mut long, 10)] {
        owned_graph.complete(0, Value::Int(number)).unwrap();
    }
    let taken = long.step(3, None).unwrap().taken.unwrap();
    swap(&mut short, &mut long);
    assert_eq!(long.step(3, Some((taken.stage, one_more(taken.args)))), Err(Refused::NOT_HELD));
    assert_eq!(short.step(3, Some((taken.stage, one_more(taken.args)))).unwrap().finished, Some(Finished::Won));
    let (mut first, mut second) = (short.sweep().unwrap(), long.sweep().unwrap());
    let held = second.step(None).unwrap().unwrap();
    swap(&mut first, &mut second);
    assert_eq!(first.step(Some((held.stage, one_more(held.args)))), Ok(None));
    let mut short = first.into_graph().unwrap();
    assert_eq!(short.outcome(1), given(2));
    assert_eq!(second.step(None), Ok(None));
    let mut long = replace(&mut short, second.into_graph().unwrap());
    swap(&mut short, &mut long);
    // What the third caller took before the sweep is its own yet.
    assert_eq!(long.finish(3, 2, Answer::Give(Value::Int(12))), Ok(Finished::Won));

    let mut owned_plan = row(1);
    let (mut one, mut two) = (Ledger::new(&mut owned_plan, 2).unwrap(), Ledger::new(&mut owned_plan, 2).unwrap());
    one.apply(completes(0, 5)).unwrap();
    swap(&mut one, &mut two);
    assert_eq!((one.word_count(), two.word_count()), (Ok(0), Ok(1)));
    assert_eq!((one.news().len(), two.news().len()), (0, 2));
}

/// All orders in which six owners that share a plan are freed, some of them by another thread.
#[test]
fn owners_are_freed_in_any_order() {
    fn owners() -> Vec<Box<dyn Send>> {
        let mut owned_plan = row(3);
        let (owned_desk, mut owned_callers) = owned_plan.desk(sizes(2, 9, 9)).unwrap();
        let last = owned_callers.pop().unwrap();
        let sweep = owned_plan.graph(2).unwrap().sweep().unwrap();
        vec![
            Box::new(owned_plan.graph(0).unwrap()),
            Box::new(sweep),
            Box::new(owned_plan),
            Box::new(last),
            Box::new(owned_callers),
            Box::new(owned_desk),
        ]
    }
    let mut orders = vec![vec![]];
    for k in 0..6 {
        orders = orders.iter().flat_map(|order: &Vec<usize>| (0..=k).map(move |at| [&order[..at], &[k], &order[at..]].concat())).collect();
    }
    assert_eq!(orders.len(), 720);
    let (frees, freed) = channel::<Box<dyn Send>>();
    let other = thread::spawn(move || freed.into_iter().for_each(drop));
    for (k, order) in orders.into_iter().enumerate() {
        let mut owners: Vec<_> = owners().into_iter().map(Some).collect();
        for at in order {
            let owner = owners[at].take().unwrap();
            if (k + at) % 3 == 0 {
                frees.send(owner).unwrap();
            }
        }
    }
    drop(frees);
    other.join().unwrap();
}

/// One graph goes from thread to thread, while others of its plan are opened, used and freed.
#[test]
fn a_graph_goes_from_thread_to_thread() {
    let mut owned_plan = row(1);
    let graphs: Vec<Graph> = (0..4).map(|_| owned_plan.graph(0).unwrap()).collect();
    let (starts, ends) = channel();
    let threads: Vec<_> = graphs
        .into_iter()
        .map(|mut own| {
            let ends = starts.clone();
            thread::spawn(move || {
                for k in 0..200 {
                    let mut owned_plan = own.plan().unwrap();
                    let mut owned_graph = owned_plan.graph(1).unwrap();
                    owned_graph.complete(0, Value::Int(k)).unwrap();
                    drop(owned_plan);
                    ends.send((k, owned_graph)).unwrap();
                }
            })
        })
        .collect();
    drop((starts, owned_plan));
    let mut calls = 0;
    for (k, mut owned_graph) in ends {
        calls += owned_graph.work(0, |_, args| one_more(args)).unwrap();
        assert_eq!(owned_graph.outcome(1), given(k + 1));
    }
    assert_eq!(calls, 800);
    threads.into_iter().for_each(|thread| thread.join().unwrap());
}

/// After a call was refused, what it had is as it was.
#[test]
fn owners_are_whole_after_refusals() {
    let mut owned_plan = row(1);
    let mut owned_graph = owned_plan.graph(0).unwrap();
    for _ in 0..3 {
        assert_eq!(owned_graph.attach(Form::Apply, &[0], None), Err(Refused::BAD_ATTACH));
        assert_eq!(owned_graph.finish(0, u16::MAX, Answer::Link(u16::MAX)), Err(Refused::NO_STAGE));
        assert_eq!(owned_graph.step(0, Some((1, Answer::Throw(0)))), Err(Refused::NOT_HELD));
        assert_eq!(owned_graph.step_all(0, &[None, Some((1, Answer::Throw(0)))]), Err(Refused::NOT_HELD));
        assert_eq!(owned_graph.apply(1), Err(Refused::NO_WORD));
    }
    owned_graph.complete(0, Value::Int(1)).unwrap();
    let mut sweep = owned_graph.sweep().unwrap();
    for _ in 0..3 {
        sweep = sweep.into_graph().unwrap_err();
        assert_eq!(sweep.step(Some((0, Answer::Throw(0)))), Err(Refused::NOT_HELD));
    }
    assert_eq!(sweep.step(None).unwrap().unwrap().stage, 1);
    assert_eq!(sweep.step(Some((1, Answer::Give(Value::Int(2))))), Ok(None));
    assert_eq!(sweep.into_graph().unwrap().outcome(1), given(2));

    let mut owned_ledger = Ledger::new(&mut owned_plan, 0).unwrap();
    let mut changes = Changes::default();
    for _ in 0..3 {
        assert_eq!(owned_ledger.grow(u16::MAX), Err(Refused::ROOM));
        assert_eq!(owned_ledger.step(64, None, 0, &mut changes), Err(Refused::NO_WORD));
        assert_eq!(owned_ledger.step(1, Some((1, Answer::Throw(0))), 0, &mut changes), Err(Refused::NOT_HELD));
        assert_eq!(owned_ledger.apply_all(&[0]), (0, Err(Refused::NO_WORD)));
    }
    assert_eq!(owned_ledger.word_count(), Ok(0));

    let (mut owned_desk, mut owned_callers) = owned_plan.desk(sizes(2, 1, 1)).unwrap();
    assert_eq!(owned_callers[0].complete(0, Value::Int(5)), Ok(true));
    let kept = owned_callers.pop().unwrap();
    for _ in 0..3 {
        let refused = owned_desk.close(owned_callers).unwrap_err();
        (owned_desk, owned_callers) = (refused.desk, refused.callers);
        assert_eq!(owned_callers[0].read_outcome(0), Err(Refused::PASS_FULL));
    }
    owned_callers.push(kept);
    assert_eq!(owned_callers[1].complete(0, Value::Nil), Err(Refused::LOG_FULL));
    assert_eq!(owned_desk.close(owned_callers).unwrap().graph().unwrap().outcome(0), given(5));
}

/// Each `unsafe` says what it meets.
#[test]
fn each_unsafe_says_what_it_meets() {
    let names = ["alone", "apart", "one desk", "pointers", "unwritten", "this library"];
    let mut found = 0;
    for file in std::fs::read_dir(Path::new(env!("CARGO_MANIFEST_DIR")).join("src")).unwrap() {
        let path = file.unwrap().path();
        let text = std::fs::read_to_string(&path).unwrap();
        let lines: Vec<&str> = text.lines().collect();
        for (at, line) in lines.iter().enumerate().filter(|(_, line)| line.contains("unsafe {") || line.contains("unsafe impl")) {
            let said = lines[..at].iter().rev().take(2).find_map(|line| line.trim().strip_prefix("// SAFETY: "));
            let said = said.and_then(|said| said.split_once(": ")).map(|(names, _)| names);
            let is_named = said.map_or(false, |said| said.split(", ").all(|name| names.contains(&name)));
            assert!(is_named, "{}:{}: {line}", path.display(), at + 1);
            found += 1;
        }
    }
    assert!(found > 60, "{found}");
}
