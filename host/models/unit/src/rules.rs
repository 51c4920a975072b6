//! The rules that a unit goes by: the scope's limits, orders and choices, as one value.

use crate::calls::Calls;
use crate::data::DataRules;
use crate::machine::MachineRules;
use crate::notice::NoticeRules;
use crate::plan_rules::PlanRules;
use crate::refusal::RefusalRules;
use crate::reply::ReplyRules;
use crate::request::RequestRules;
use crate::request_read::ReadingRules;
use crate::set::SetRules;
use crate::target::TargetRules;
use crate::time::TimeRules;

/// By default the scope's. Each part stands with what goes by it.
#[derive(Clone, Debug, Default)]
pub struct Rules {
    pub(crate) calls: Calls,
    pub(crate) refusals: RefusalRules,
    pub(crate) plan: PlanRules,
    pub(crate) sets: SetRules,
    pub(crate) targets: TargetRules,
    pub(crate) requests: RequestRules,
    pub(crate) reading: ReadingRules,
    pub(crate) machine: MachineRules,
    pub(crate) data: DataRules,
    pub(crate) time: TimeRules,
    pub(crate) replies: ReplyRules,
    pub(crate) notices: NoticeRules,
}
