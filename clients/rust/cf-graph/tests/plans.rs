//! Plans: forms and their numbers, what a builder refuses.
use cf_graph::*;

#[test]
fn builders_refuse() {
    let mut builder = PlanBuilder::new().unwrap();
    assert_eq!(builder.stage(Form::Apply, &[0], Some(0)), Err(Refused::SOURCE_NOT_LOWER));
    assert_eq!(builder.stage(Form::Source, &[], Some(0)), Err(Refused::FUNCTION_UNWANTED));
    assert_eq!(builder.stage(Form::Supply, &[], None), Err(Refused::FUNCTION_MISSING));
    assert_eq!(builder.limit(0, 1, Limit::Timeout(7)), Err(Refused::NO_SUCH_STAGE));
    assert_eq!(builder.stage(Form::Source, &[], None), Ok(0));
    assert_eq!(builder.stage(Form::Combine, &[0], Some(0)), Err(Refused::WRONG_SOURCE_COUNT));
    let mut plan = builder.build().unwrap();
    assert_eq!(plan.graph(4_096).err(), Some(Refused::ROOM));
    assert_eq!(plan.graph(4_096).err().unwrap().code(), 16);
}

#[test]
fn each_form_has_its_number() {
    for (form, sources, has_function) in [
        (Form::Source, 0, false),
        (Form::Supply, 0, true),
        (Form::RunAsync, 0, true),
        (Form::Apply, 1, true),
        (Form::Accept, 1, true),
        (Form::ThenRun, 1, true),
        (Form::Combine, 2, true),
        (Form::AcceptBoth, 2, true),
        (Form::RunBoth, 2, true),
        (Form::ApplyEither, 2, true),
        (Form::AcceptEither, 2, true),
        (Form::RunEither, 2, true),
        (Form::Compose, 1, true),
        (Form::Handle, 1, true),
        (Form::WhenComplete, 1, true),
        (Form::Exceptionally, 1, true),
        (Form::AllOf, 3, false),
        (Form::AnyOf, 3, false),
        (Form::ExceptionallyCompose, 1, true),
    ] {
        let mut builder = PlanBuilder::new().unwrap();
        assert_eq!(builder.stage(Form::Source, &[], None), Ok(0));
        let of = vec![0; sources];
        assert_eq!(builder.stage(form, &of, has_function.then_some(3)), Ok(1), "{form:?}");
    }
}
