//! The loop over a graph's functions in one sweep.
use crate::graph::Graph;
use crate::handle::Handle;
use crate::refused::Refused;
use crate::step::{taken_out, task_in, ClaimedStage};
use crate::values::Answer;
use cf_sys as sys;

/// A graph whose functions are called in one sweep over all stages, which takes the least time a stage: what [`Graph::sweep`] gives.
///
/// ```
/// use cf_graph::{Answer, Args, Form, PlanBuilder, Value};
/// # fn main() -> Result<(), cf_graph::Refused> {
/// let mut builder = PlanBuilder::new()?;
/// builder.stage(Form::Source, &[], None)?;
/// builder.stage(Form::Apply, &[0], Some(7))?;
/// let mut graph = builder.build()?.graph(0)?;
/// graph.complete(0, Value::Int(20))?;
/// let (mut sweep, mut held) = (graph.sweep()?, None);
/// while let Some(taken) = sweep.step(held)? {
///     assert_eq!((taken.function, taken.args), (7, Args::One(Value::Int(20))));
///     held = Some((taken.stage, Answer::Give(Value::Int(21))));
/// }
/// let mut graph = sweep.into_graph().expect("nothing is ready");
/// assert_eq!(graph.outcome(1)?, Some(cf_graph::Outcome::Value(Value::Int(21))));
/// # Ok(())
/// # }
/// ```
#[derive(Debug)]
pub struct Sweep(Handle);

impl Sweep {
    /// The sweep over a graph.
    pub(crate) fn over(mut graph: Graph) -> Result<Sweep, Refused> {
        // SAFETY: alone: `h` is this call's.
        graph.0.call(|h| unsafe { sys::cf_sweep_begin(h) })?;
        Ok(Sweep(graph.0))
    }

    /// Settles the stage at which the sweep stands by this answer, as if a caller had claimed and finished it, and goes on to the lowest ready
    /// one: None where none is, and all stages are behind it. `NOT_HELD` where the sweep stands at another stage than the one that is held, or
    /// at none: nothing is changed then.
    pub fn step(&mut self, held: Option<(u16, Answer)>) -> Result<Option<ClaimedStage>, Refused> {
        let mut task = task_in(held);
        // SAFETY: alone, pointers: `h` and the task are this call's.
        match self.0.call(|h| unsafe { sys::cf_sweep_next(h, &mut task) }) {
            Ok(()) | Err(Refused::NOTHING) => Ok(taken_out(&task)),
            Err(refused) => Err(refused),
        }
    }

    /// The graph, once all stages are behind the sweep. Until then the sweep is given back.
    pub fn into_graph(mut self) -> Result<Graph, Sweep> {
        // SAFETY: alone: `h` is this call's.
        match self.0.call(|h| unsafe { sys::cf_sweep_end(h) }) {
            Ok(()) => Ok(Graph(self.0)),
            Err(_) => Err(self),
        }
    }
}
