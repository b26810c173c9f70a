//! Plans, and how they are built.
use crate::desk::{desk_and_callers, Caller, Desk};
use crate::graph::Graph;
use crate::handle::Handle;
use crate::refused::{check_library_once, Refused};
use crate::values::{value_in, Value};
use cf_sys as sys;

/// How a stage depends on its sources; the names are those of Java's `CompletionStage`.
#[derive(Clone, Copy, PartialEq, Eq, Debug)]
#[repr(u32)]
#[non_exhaustive]
pub enum Form {
    /// A stage without a function, which somebody settles. No source.
    Source,
    /// `supplyAsync`: its function gives a value. No source.
    Supply,
    /// `runAsync`: its function gives nothing. No source.
    RunAsync,
    /// `thenApply`: what the function gives of the value. One source.
    Apply,
    /// `thenAccept`: the function takes the value and gives nothing. One source.
    Accept,
    /// `thenRun`: the function takes and gives nothing. One source.
    ThenRun,
    /// `thenCombine`: what the function gives of both values. Two sources.
    Combine,
    /// `thenAcceptBoth`: the function takes both values and gives nothing. Two sources.
    AcceptBoth,
    /// `runAfterBoth`: the function takes and gives nothing. Two sources.
    RunBoth,
    /// `applyToEither`: what the function gives of the value that is there first. Two sources.
    ApplyEither,
    /// `acceptEither`: the function takes the value that is there first and gives nothing. Two sources.
    AcceptEither,
    /// `runAfterEither`: the function takes and gives nothing, once one has a value. Two sources.
    RunEither,
    /// `thenCompose`: ends as the stage that the function names. One source.
    Compose,
    /// `handle`: what the function gives of the value or the fault. One source.
    Handle,
    /// `whenComplete`: ends as its source, once the function was called with that. One source.
    WhenComplete,
    /// `exceptionally`: the value, or what the function gives of the fault. One source.
    Exceptionally,
    /// `allOf`: nil once all have values, else the first fault by order, once all are settled. Any number of sources, no function.
    AllOf,
    /// `anyOf`: what the first has that is settled. Any number of sources, no function.
    AnyOf,
    /// `exceptionallyCompose`: the value, or what the stage ends in that the function names for the fault. One source.
    ExceptionallyCompose,
}

const FORMS: [Form; 19] = [
    Form::Source,
    Form::Supply,
    Form::RunAsync,
    Form::Apply,
    Form::Accept,
    Form::ThenRun,
    Form::Combine,
    Form::AcceptBoth,
    Form::RunBoth,
    Form::ApplyEither,
    Form::AcceptEither,
    Form::RunEither,
    Form::Compose,
    Form::Handle,
    Form::WhenComplete,
    Form::Exceptionally,
    Form::AllOf,
    Form::AnyOf,
    Form::ExceptionallyCompose,
];

/// The form of a number of cf.h.
pub(crate) fn form_out(number: u32) -> Form {
    FORMS[number as usize]
}

/// What a limit does to a stage that isn't settled at its moment.
#[derive(Clone, Copy, PartialEq, Eq, Debug)]
#[non_exhaustive]
pub enum Limit {
    /// It times out with this code, which may be any number.
    Timeout(u32),
    /// It gets this value.
    Give(Value),
}

/// Stages, each of which depends on lower ones.
#[derive(Debug)]
pub struct PlanBuilder(Handle);

impl PlanBuilder {
    /// An empty builder. `OTHER_LIBRARY` where the library isn't the one that this crate was written for, `NO_MEMORY`.
    pub fn new() -> Result<PlanBuilder, Refused> {
        check_library_once()?;
        let mut handle = Handle::empty();
        // SAFETY: this library, alone: `h` is this call's.
        handle.call(|h| unsafe { sys::cf_builder_new(h, 0, 0) })?;
        Ok(PlanBuilder(handle))
    }

    /// Adds a stage to these sources, and tells its number. `function` is the number by which you know its function.
    pub fn stage(&mut self, form: Form, of: &[u16], function: Option<u16>) -> Result<u16, Refused> {
        // SAFETY: alone, pointers: `h` and what is told to are this call's, and `of` points to as many numbers as said.
        self.0.tell(|h, told| unsafe { sys::cf_builder_stage(h, form as u32, of.as_ptr(), of.len(), function_in(function), told) })
    }

    /// Adds what is done to a stage that isn't settled at a moment. `NO_SUCH_STAGE`, `TOO_MANY_LIMITS`, `NO_MEMORY`.
    pub fn limit(&mut self, stage: u16, at: u32, limit: Limit) -> Result<(), Refused> {
        let (kind, code, value) = limit_in(limit);
        // SAFETY: alone: `h` is this call's.
        self.0.call(|h| unsafe { sys::cf_builder_limit(h, stage, at, kind, code, value) })
    }

    /// The plan of these stages. `NO_MEMORY`.
    pub fn build(mut self) -> Result<Plan, Refused> {
        // SAFETY: alone: `h` is this call's.
        self.0.call(|h| unsafe { sys::cf_build(h) })?;
        Ok(Plan(self.0))
    }
}

/// The kind of a limit, the code with which it times out, and the value that it gives.
pub(crate) fn limit_in(limit: Limit) -> (u32, u32, sys::cf_value) {
    match limit {
        Limit::Timeout(code) => (sys::CF_TIMEOUT, code, value_in(Value::Nil)),
        Limit::Give(value) => (sys::CF_GIVE_VALUE, 0, value_in(value)),
    }
}

pub(crate) fn function_in(function: Option<u16>) -> u32 {
    function.map_or(sys::CF_NO_FUNCTION, u32::from)
}

/// What graphs are opened of. They share its memory, which stays until the last of them is dropped.
#[derive(Debug)]
pub struct Plan(pub(crate) Handle);

impl Plan {
    /// A graph at its start, with room for so many stages that are attached later.
    pub fn graph(&mut self, room: u16) -> Result<Graph, Refused> {
        let mut graph = Handle::empty();
        // SAFETY: alone, apart: two handles, and both are this call's.
        self.0.call(|plan| Refused::code_of(graph.call(|h| unsafe { sys::cf_graph_new(plan, room, h) })))?;
        Ok(Graph(graph))
    }

    /// A desk at its start, and its callers 0, 1, .., each for one thread.
    pub fn desk(&mut self, sizes: Sizes) -> Result<(Desk, Vec<Caller>), Refused> {
        let mut handles: Vec<sys::cf_handle> = (0..sizes.callers).map(|_| sys::cf_handle::EMPTY).collect();
        let (callers, n) = (handles.as_mut_ptr(), handles.len());
        self.0.call(|plan| match sizes.growth {
            // SAFETY: alone, apart, pointers: `plan` is this call's, and `callers` points to n empty handles that nobody else has.
            None => unsafe { sys::cf_desk_open(plan, callers, n, sizes.log, sizes.calls) },
            Some((room, functions)) => {
                let grown = sys::cf_desk_sizes { log: sizes.log, calls: sizes.calls, room, functions };
                // SAFETY: alone, apart, pointers: `plan` is this call's, and `callers` points to n empty handles that nobody else has.
                unsafe { sys::cf_desk_open_with(plan, callers, n, &grown) }
            }
        })?;
        Ok(desk_and_callers(sizes, handles))
    }
}

/// How much a desk holds.
#[derive(Clone, Copy, PartialEq, Eq, Debug)]
pub struct Sizes {
    /// 1 to 64.
    pub callers: u8,
    /// How many changing calls of all callers the log holds.
    pub log: u16,
    /// How many records of its own calls, reads too, each caller holds.
    pub calls: u16,
    /// Where callers attach stages: room for so many, and the number that each function's is below.
    pub growth: Option<(u16, u32)>,
}
