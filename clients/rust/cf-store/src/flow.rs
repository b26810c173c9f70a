//! Plans that are begun again and again: the stages of a request, before there is one.
use crate::context;
use crate::error::StoreError;
use crate::functions::Functions;
use crate::plan::{self, StageSpec};
use cf_graph::Form;
use serde_json::{Map, Value as Json};
use std::collections::hash_map::DefaultHasher;
use std::hash::{Hash, Hasher};
use std::mem::discriminant;

/// A plan of stages, built once. [`Service::start`](crate::Service::start) begins a request of it, whose stages then stand in its plan, and take no
/// words.
///
/// Each step that is behind others names steps of this flow; one that names another's makes it no plan. Functions are named as in a
/// [`Request`](crate::Request).
#[derive(Clone, Debug, Default)]
pub struct Flow {
    name: String,
    steps: Vec<(Form, Vec<u16>, StageSpec)>,
    prints: Prints,
    /// Whether a step names one of another flow.
    is_mixed: bool,
}

/// A step of a flow: the stage that each request of it will have.
#[derive(Clone, Copy, Debug, PartialEq, Eq)]
pub struct Step {
    number: u16,
    print: u64,
}

impl Step {
    /// The stage's number in the request.
    pub fn number(self) -> u16 {
        self.number
    }
}

/// Numbers that flows have in common up to the first step in which they differ: one for each step, by the flow's name and by the forms, sources and
/// names of all steps up to this one.
#[derive(Clone, Debug, Default)]
pub(crate) struct Prints(Vec<u64>);

impl Prints {
    /// Those of a plan.
    pub(crate) fn new(name: &str, steps: &[(Form, Vec<u16>, StageSpec)]) -> Prints {
        let mut prints = Prints::default();
        for (form, of, said) in steps {
            prints.add(name, *form, of, &said.name);
        }
        prints
    }

    fn add(&mut self, flow: &str, form: Form, of: &[u16], name: &str) -> u64 {
        let mut print = DefaultHasher::new();
        (self.0.last(), flow, discriminant(&form), of, name).hash(&mut print);
        self.0.push(print.finish());
        print.finish()
    }

    /// Whether a step is one of these.
    pub(crate) fn has_step(&self, step: Step) -> bool {
        self.0.get(usize::from(step.number)) == Some(&step.print)
    }
}

impl Flow {
    /// A flow without steps. Requests of one name are begun with one plan.
    pub fn new(name: &str) -> Flow {
        Flow { name: name.into(), ..Flow::default() }
    }

    /// A step without a function, whose value [`Service::start`](crate::Service::start) takes, or which somebody settles later.
    pub fn promise(&mut self, name: &str) -> Step {
        self.add_step(Form::Source, &[], StageSpec { name: name.into(), ..StageSpec::default() })
    }

    /// As [`Request::supply`](crate::Request::supply).
    pub fn supply(&mut self, function: &str, args: &[Json]) -> Step {
        self.supply_named(function, args, &Map::new())
    }

    /// As [`Request::supply_named`](crate::Request::supply_named).
    pub fn supply_named(&mut self, function: &str, args: &[Json], named: &Map<String, Json>) -> Step {
        self.add_step(Form::Supply, &[], StageSpec { args: args.to_vec(), kwargs: named.clone(), ..calling(function) })
    }

    /// As [`Stage::then`](crate::Stage::then).
    pub fn then(&mut self, step: Step, function: &str) -> Step {
        self.add_step(Form::Apply, &[step], calling(function))
    }

    /// As [`Stage::combine`](crate::Stage::combine).
    pub fn combine(&mut self, step: Step, other: Step, function: &str) -> Step {
        self.add_step(Form::Combine, &[step, other], calling(function))
    }

    /// As [`Stage::either`](crate::Stage::either).
    pub fn either(&mut self, step: Step, other: Step, function: &str) -> Step {
        self.add_step(Form::ApplyEither, &[step, other], calling(function))
    }

    /// As [`Stage::handle`](crate::Stage::handle).
    pub fn handle(&mut self, step: Step, function: &str) -> Step {
        self.add_step(Form::Handle, &[step], calling(function))
    }

    /// As [`Stage::when_done`](crate::Stage::when_done).
    pub fn when_done(&mut self, step: Step, function: &str) -> Step {
        self.add_step(Form::WhenComplete, &[step], calling(function))
    }

    /// As [`Stage::recover`](crate::Stage::recover).
    pub fn recover(&mut self, step: Step, function: &str) -> Step {
        self.add_step(Form::Exceptionally, &[step], calling(function))
    }

    /// As [`Stage::again`](crate::Stage::again).
    pub fn again(&mut self, step: Step, times: usize) -> Step {
        let name = self.steps.get(usize::from(step.number)).map_or_else(String::new, |(_, _, said)| format!("{} again", said.name));
        let mut last = step;
        for _ in 0..times {
            last = self.add_step(Form::Exceptionally, &[last], StageSpec { name: name.clone(), again: Some(step.number), ..StageSpec::default() });
        }
        last
    }

    /// As [`Request::all_of`](crate::Request::all_of). It takes one step.
    pub fn all_of(&mut self, of: &[Step]) -> Step {
        self.add_step(Form::AllOf, of, StageSpec { name: "all of".into(), ..StageSpec::default() })
    }

    /// As [`Request::first_of`](crate::Request::first_of). It takes one step.
    pub fn first_of(&mut self, of: &[Step]) -> Step {
        self.add_step(Form::AnyOf, of, StageSpec { name: "first of".into(), ..StageSpec::default() })
    }

    fn add_step(&mut self, form: Form, of: &[Step], said: StageSpec) -> Step {
        let number = self.steps.len().min(u16::MAX.into()) as u16; // (a flow that has so many is refused)
        self.is_mixed |= of.iter().any(|step| !self.prints.has_step(*step));
        let of: Vec<u16> = of.iter().map(|it| it.number).collect();
        let print = self.prints.add(&self.name, form, &of, &said.name);
        self.steps.push((form, of, said));
        Step { number, print }
    }

    pub(crate) fn promises(&self) -> Vec<u16> {
        let promises = (0..).zip(&self.steps).filter(|(_, (form, _, _))| *form == Form::Source);
        promises.map(|(number, _)| number).collect()
    }

    /// The text of its plan, with the functions' latest versions, and with what goes along here.
    pub(crate) fn plan_text(&self, functions: &Functions) -> Result<String, StoreError> {
        if self.is_mixed {
            return Err(StoreError::Refused(format!("flow {:?} has a step behind one of another flow", self.name)));
        }
        let mut steps = self.steps.clone();
        for (_, _, said) in &mut steps {
            if let Some(function) = &said.function {
                said.version = Some(functions.latest(function).ok_or_else(|| StoreError::NotRegistered(function.clone()))?);
            }
        }
        let text = plan::text_of(&self.name, steps, context::capture())?;
        plan::read_plan(&text, &self.name).map(|_| text).map_err(|error| StoreError::Refused(error.to_string()))
    }
}

fn calling(function: &str) -> StageSpec {
    StageSpec { name: function.into(), function: Some(function.into()), ..StageSpec::default() }
}
