//! A lane and the calls on it in turn.

use super::binding::Words;
use super::host_call::HostCall;

#[derive(Clone, Debug, PartialEq, Eq)]
pub struct Case {
    pub first: Words,
    pub calls: Vec<HostCall>,
}
