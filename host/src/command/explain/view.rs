//! How a plan is drawn: the variable whose values are the lanes, and the one that is the clock.

use crate::command::arguments::Arguments;
use crate::command::known::Known;
use crate::command::Complaint;
use crate::reference::syntax::Variable;

pub const LANE: &str = "--lane";
pub const CLOCK: &str = "--clock";

/// A variable by number, if one is asked for. Without a clock the axis has costs, without lanes each step has a row.
#[derive(Clone, Copy, Default)]
pub struct View {
    pub lane: Option<usize>,
    pub clock: Option<usize>,
}

impl View {
    /// The variables that the arguments name; nothing is known of a model that is refused.
    pub fn read(arguments: &Arguments, known: Option<&Known>) -> Result<View, Complaint> {
        let Some(known) = known else {
            return Ok(View::default());
        };
        let clock = variable(arguments, CLOCK, known)?;
        let number = |clock: &usize| {
            matches!(
                known.model.variables.get(*clock),
                Some(Variable::Number { .. })
            )
        };
        if let Some(clock) = clock.filter(|clock| !number(clock)) {
            let name = known.names.variable(clock);
            let message = format!("{CLOCK}: `{name}` is no number, and a clock is one");
            return Err(Complaint::new(message));
        }
        let lane = variable(arguments, LANE, known)?;
        Ok(View { lane, clock })
    }
}

/// The variable that an option names.
fn variable(
    arguments: &Arguments,
    option: &str,
    known: &Known,
) -> Result<Option<usize>, Complaint> {
    let Some(given) = arguments.value(option) else {
        return Ok(None);
    };
    let given = given.to_string_lossy();
    let count = known.model.variables.len();
    let names: Vec<String> = (0..count)
        .map(|index| known.names.variable(index))
        .collect();
    match names.iter().position(|name| *name == given) {
        Some(index) => Ok(Some(index)),
        None => Err(Complaint::new(format!(
            "{option}: the model has no variable `{given}`; it has {}",
            if names.is_empty() {
                "none".to_string()
            } else {
                names.join(", ")
            }
        ))),
    }
}
