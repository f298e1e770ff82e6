//! Stand-in for processes: the execution payload of a user thread.
#![allow(dead_code)]

pub struct UserExecution;

pub struct UserExecutionOwnership;

#[derive(Clone)]
pub struct UserThread;

impl UserExecution {
    pub fn arm_for_process_publication(&mut self, _ownership: UserExecutionOwnership) {}
}
