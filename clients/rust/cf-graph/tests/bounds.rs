//! Numbers and lengths of all sizes, rows of thousands of stages and changes, and how little stack they take. Sanitizers and valgrind
//! run these, too: conformance/clients/rust-sanitized.
mod common;

use cf_graph::*;
use common::{completes, one_more, row, sizes};
use std::panic::{catch_unwind, AssertUnwindSafe};
use std::thread;

#[test]
fn numbers_and_lengths_are_never_cut() {
    let mut wide_builder = PlanBuilder::new().unwrap();
    assert_eq!(wide_builder.stage(Form::Source, &[], None), Ok(0));
    // As many more than fit into 16 bits as there have to be.
    assert_eq!(wide_builder.stage(Form::Combine, &vec![0; (1 << 16) + 2], Some(0)), Err(Refused::WRONG_SOURCE_COUNT));
    assert_eq!(wide_builder.stage(Form::Apply, &vec![0; (1 << 16) + 1], Some(0)), Err(Refused::WRONG_SOURCE_COUNT));
    assert_eq!(wide_builder.stage(Form::AllOf, &vec![0; 1 << 16], None), Err(Refused::TOO_MANY_EDGES));
    assert_eq!(wide_builder.stage(Form::Apply, &[u16::MAX], Some(0)), Err(Refused::SOURCE_NOT_LOWER));
    assert_eq!(wide_builder.stage(Form::Apply, &[0], Some(u16::MAX)), Ok(1));
    assert_eq!(wide_builder.limit(u16::MAX, u32::MAX, Limit::Timeout(u32::MAX)), Err(Refused::NO_SUCH_STAGE));
    assert_eq!(wide_builder.limit(0, u32::MAX, Limit::Timeout(u32::MAX)), Ok(()));
    let mut wide_plan = wide_builder.build().unwrap();
    assert_eq!(wide_plan.graph(u16::MAX).err(), Some(Refused::ROOM));
    assert_eq!(Ledger::new(&mut wide_plan, u16::MAX).err(), Some(Refused::ROOM));
    assert_eq!(Ledger::from_words(&mut wide_plan, u16::MAX, &[]).err().map(|misfit| misfit.place), Some(None));

    let mut wide_graph = wide_plan.graph(0).unwrap();
    for stage in [2, 4_095, 4_096, u16::MAX] {
        assert_eq!(wide_graph.complete(stage, Value::Nil), Err(Refused::NO_STAGE));
        assert_eq!(wide_graph.outcome(stage), Err(Refused::NO_STAGE));
        assert_eq!(wide_graph.restart_with(&[(stage, Value::Nil)]), Err(Refused::NO_STAGE));
    }
    assert_eq!(wide_graph.attach(Form::AllOf, &vec![0; (1 << 16) + 2], None), Err(Refused::WRONG_SOURCE_COUNT));
    assert_eq!(wide_graph.restart_with(&[(0, Value::Int(i32::MIN)); 70_000]), Ok(()));
    assert_eq!(wide_graph.tick(u32::MAX), Ok(Ticked::Fired(0)));
    let steps = wide_graph.step_all(u8::MAX, &vec![None; 70_000]).unwrap();
    assert_eq!(steps.len(), 70_000);
    assert_eq!(steps[0].taken, Some(ClaimedStage { stage: 1, function: u16::MAX, args: Args::One(Value::Int(i32::MIN)) }));
    assert!(steps[1..].iter().all(|step| step.taken.is_none()));

    for (sizes, why) in
        [(Sizes { growth: Some((u16::MAX, u32::MAX)), ..sizes(1, 1, 1) }, Refused::ROOM), (sizes(u8::MAX, u16::MAX, u16::MAX), Refused::CALLERS)]
    {
        assert_eq!(wide_plan.desk(sizes).err(), Some(why), "{sizes:?}");
    }
    let (_desk, mut callers) = wide_plan.desk(sizes(1, 10, 10)).unwrap();
    assert_eq!(callers[0].complete_all(&[(0, Value::Nil); 70_000]), (10, Err(Refused::PASS_FULL)));
    let (_desk, mut callers) = wide_plan.desk(sizes(1, 10, 10)).unwrap();
    callers[0].complete(0, Value::Nil).unwrap();
    assert_eq!(callers[0].join(0, u32::MAX), Ok(Now::Value(Value::Nil)));

    let late = vec![completes(0, 1); 70_000];
    let mut wide_ledger = Ledger::from_words(&mut wide_plan, 0, &late).unwrap();
    assert_eq!(wide_ledger.word_count(), Ok(70_000));
    assert_eq!(wide_ledger.words().unwrap(), late);
    assert_eq!(wide_ledger.apply_all(&late), (70_000, Ok(())));
    assert_eq!(wide_ledger.grow(u16::MAX), Err(Refused::ROOM));
    assert_eq!((wide_ledger.lowest_ready(u16::MAX), wide_ledger.stage(u16::MAX).err()), (Ok(None), Some(Refused::NO_STAGE)));
    assert_eq!(Event::from_word(u64::MAX), Err(Refused::NO_WORD));
}

/// More changes than there was room for, also for rows of changes that another ledger has used.
#[test]
fn changes_of_all_sizes_are_told() {
    let mut changes = Changes::default();
    for applies in [0, 14, 15, 16, 17, 1_000, 3, 4_000] {
        let mut wide_ledger = Ledger::new(&mut all_behind_one(applies), 0).unwrap();
        wide_ledger.apply_telling(completes(0, 1), &mut changes).unwrap();
        let told: Vec<u16> = changes.iter().map(|news| news.stage).collect();
        assert_eq!(told, (0..=applies).collect::<Vec<u16>>());
        assert!(catch_unwind(AssertUnwindSafe(|| changes.at(usize::from(applies) + 1))).is_err());
        assert_eq!(wide_ledger.apply_telling(0, &mut changes), Err(Refused::NO_WORD));
        assert!(changes.is_empty());
    }
}

/// So many stages that are settled, or become ready, by the first.
fn all_behind_one(count: u16) -> Plan {
    let mut wide_builder = PlanBuilder::new().unwrap();
    wide_builder.stage(Form::Source, &[], None).unwrap();
    for _ in 0..count {
        wide_builder.stage(Form::Apply, &[0], Some(0)).unwrap();
    }
    wide_builder.build().unwrap()
}

/// A stack that is small for a thread is enough for any call.
#[test]
fn calls_take_little_stack() {
    let does = || {
        let mut wide_plan = all_behind_one(4_000);
        let mut wide_graph = wide_plan.graph(90).unwrap();
        wide_graph.complete(0, Value::Int(1)).unwrap();
        assert_eq!(wide_graph.work(1, |_, args| one_more(args)), Ok(4_000));
        let mut row = row(4_000);
        let mut wide_graph = row.graph(0).unwrap();
        wide_graph.fail(0, 1).unwrap();
        let (desk, mut callers) = row.desk(sizes(2, 9, 9)).unwrap();
        callers[0].cancel(0).unwrap();
        callers[1].read_outcome(4_000).unwrap();
        assert_eq!(desk.close(callers).unwrap().words().unwrap().len(), 1);
        let mut wide_ledger = Ledger::new(&mut row, 0).unwrap();
        wide_ledger.apply_event(Event { who: 0, call: Call::Cancel(0) }).unwrap();
        assert_eq!(wide_ledger.news().len(), 4_001);
    };
    thread::Builder::new().stack_size(1 << 18).spawn(does).unwrap().join().unwrap();
}
