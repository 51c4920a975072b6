//! The rules that a run goes by: the scope's limits, orders and choices, as one value.

use crate::fields::FieldRules;
use crate::lines::LineRules;
use crate::plan::PlanRules;
use crate::printing::PrintRules;
use crate::run::RunRules;

/// By default the scope's. Each part stands with what goes by it.
#[derive(Clone, Debug, Default)]
pub struct Rules {
    pub(crate) lines: LineRules,
    pub(crate) plan: PlanRules,
    pub(crate) fields: FieldRules,
    pub(crate) run: RunRules,
    pub(crate) printing: PrintRules,
}
