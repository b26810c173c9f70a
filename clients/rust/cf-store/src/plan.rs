//! The text of a request's plan, of which each process builds the same graph. It is the JSON that Python's `cf.store` writes.
use crate::error::StoreError;
use cf_graph::{Form, Plan, PlanBuilder};
use serde::{Deserialize, Serialize};
use serde_json::{Map, Value};

/// The format of plans in stores.
const FORMAT: u32 = 3;

/// What a plan, or the payload of the word that attached it, says of a stage.
#[derive(Clone, Debug, Default, PartialEq, Serialize, Deserialize)]
pub(crate) struct StageSpec {
    pub(crate) name: String,
    /// Its function's name.
    #[serde(rename = "fn", default, skip_serializing_if = "Option::is_none")]
    pub(crate) function: Option<String>,
    #[serde(default, skip_serializing_if = "Option::is_none")]
    pub(crate) version: Option<u32>,
    /// What its function is called with, where it has no sources.
    #[serde(default, skip_serializing_if = "Vec::is_empty")]
    pub(crate) args: Vec<Value>,
    /// What it is called with by name.
    #[serde(default, skip_serializing_if = "Map::is_empty")]
    pub(crate) kwargs: Map<String, Value>,
    /// The stage whose function a further try calls.
    #[serde(default, skip_serializing_if = "Option::is_none")]
    pub(crate) again: Option<u16>,
    /// The promise for what a composing stage's function gives.
    #[serde(default, skip_serializing_if = "Option::is_none")]
    pub(crate) to: Option<u16>,
    /// The composing stage whose function attached it.
    #[serde(default, skip_serializing_if = "Option::is_none")]
    pub(crate) by: Option<u16>,
    /// What goes along of the context in which it was attached.
    #[serde(default, skip_serializing_if = "Option::is_none")]
    pub(crate) context: Option<Map<String, Value>>,
}

impl StageSpec {
    /// Whether the functions of two stages are to do the same.
    pub(crate) fn is_alike(&self, other: &StageSpec) -> bool {
        let bare = |said: &StageSpec| StageSpec { to: None, context: None, ..said.clone() };
        bare(self) == bare(other)
    }
}

#[derive(Serialize, Deserialize)]
struct Text {
    cf: u32,
    #[serde(default)]
    flow: String,
    stages: Vec<PlanRow>,
    #[serde(default, skip_serializing_if = "Option::is_none")]
    context: Option<Map<String, Value>>,
}

#[derive(Serialize, Deserialize)]
struct PlanRow {
    form: String,
    #[serde(default)]
    of: Vec<u16>,
    #[serde(flatten)]
    said: StageSpec,
}

/// A plan that was read.
#[derive(Debug)]
pub(crate) struct SharedPlan {
    pub(crate) plan: Plan,
    /// The name of its flow.
    pub(crate) flow: String,
    pub(crate) stages: Vec<(Form, Vec<u16>, StageSpec)>,
    /// What goes along of the context in which it was begun.
    pub(crate) context: Map<String, Value>,
}

/// The text of a plan, with what is said of its stages, and the context that its functions are to have.
pub(crate) fn text_of(flow: &str, stages: Vec<(Form, Vec<u16>, StageSpec)>, context: Option<Map<String, Value>>) -> Result<String, StoreError> {
    let name = |form: Form| FORMS.iter().find_map(|(name, known)| (*known == form).then_some(*name)).unwrap_or_default();
    let stages = stages.into_iter().map(|(form, of, said)| PlanRow { form: name(form).into(), of, said }).collect();
    let text = Text { cf: FORMAT, flow: flow.into(), stages, context };
    serde_json::to_string(&text).map_err(|error| StoreError::Refused(error.to_string()))
}

/// Whether two texts are of one plan, wherever it was begun.
pub(crate) fn are_alike(text: &str, other: &str) -> bool {
    let bare = |text: &str| -> Option<Value> {
        let mut read: Value = serde_json::from_str(text).ok()?;
        read.as_object_mut()?.remove("context");
        Some(read)
    };
    text == other || bare(text).map_or(false, |it| Some(it) == bare(other))
}

/// Reads the text of a request's plan.
pub(crate) fn read_plan(text: &str, request: &str) -> Result<SharedPlan, StoreError> {
    let broken = |why: &dyn std::fmt::Display| StoreError::broken(request, 0, format!("its plan can't be read: {why}"));
    let text: Text = serde_json::from_str(text).map_err(|error| broken(&error))?;
    if text.cf != FORMAT {
        return Err(broken(&format!("it is of version {}", text.cf)));
    }
    let mut builder = PlanBuilder::new()?;
    let mut stages = Vec::with_capacity(text.stages.len());
    for (number, row) in text.stages.into_iter().enumerate() {
        let form = form_of(&row.form).ok_or_else(|| broken(&format!("it has a form {:?}", row.form)))?;
        let function = has_function(form).then_some(number as u16);
        builder.stage(form, &row.of, function).map_err(|refused| broken(&refused))?;
        stages.push((form, row.of, check_sources(row.said, number).map_err(|why| broken(&why))?));
    }
    let plan = builder.build().map_err(|refused| broken(&refused))?;
    Ok(SharedPlan { plan, flow: text.flow, stages, context: text.context.unwrap_or_default() })
}

/// What the payload of an attached stage says.
pub(crate) fn read_stage_spec(payload: &[u8], number: usize) -> Result<StageSpec, String> {
    check_sources(serde_json::from_slice(payload).map_err(|error| error.to_string())?, number)
}

/// The stages that it speaks of are lower.
fn check_sources(said: StageSpec, number: usize) -> Result<StageSpec, String> {
    if [said.again, said.to, said.by].into_iter().flatten().any(|stage| usize::from(stage) >= number.max(1)) {
        return Err(format!("it names a stage that isn't lower than {number}"));
    }
    Ok(said)
}

/// Whether a stage of this form has a function.
pub(crate) fn has_function(form: Form) -> bool {
    !matches!(form, Form::Source | Form::AllOf | Form::AnyOf)
}

fn form_of(name: &str) -> Option<Form> {
    FORMS.iter().find_map(|(known, form)| (*known == name).then_some(*form))
}

const FORMS: [(&str, Form); 19] = [
    ("source", Form::Source),
    ("supply", Form::Supply),
    ("runAsync", Form::RunAsync),
    ("apply", Form::Apply),
    ("accept", Form::Accept),
    ("thenRun", Form::ThenRun),
    ("combine", Form::Combine),
    ("acceptBoth", Form::AcceptBoth),
    ("runBoth", Form::RunBoth),
    ("applyEither", Form::ApplyEither),
    ("acceptEither", Form::AcceptEither),
    ("runEither", Form::RunEither),
    ("compose", Form::Compose),
    ("handle", Form::Handle),
    ("whenComplete", Form::WhenComplete),
    ("exceptionally", Form::Exceptionally),
    ("allOf", Form::AllOf),
    ("anyOf", Form::AnyOf),
    ("exceptionallyCompose", Form::ExceptionallyCompose),
];
