//! Stand-in for the thread's kernel object: its role and owner.

use super::thread::ThreadId;
use crate::object::ObjectCreationError;

#[derive(Clone, Copy, Debug, Eq, PartialEq)]
pub(crate) enum ThreadRole {
    Bootstrap,
    Kernel,
    Idle,
    Vcpu,
    User,
}

#[derive(Clone, Copy, Debug, Eq, PartialEq)]
pub(crate) struct ThreadObjectSnapshot(ThreadRole);

pub(crate) struct ThreadObject {
    role: ThreadRole,
    user: Option<crate::process::UserThread>,
}

impl ThreadObject {
    pub(crate) fn try_system(_id: ThreadId, role: ThreadRole) -> Result<Self, ObjectCreationError> {
        Ok(Self { role, user: None })
    }

    pub(crate) fn try_accounted_system(
        id: ThreadId,
        role: ThreadRole,
        _charge: crate::accounting::CommittedCharge,
    ) -> Result<Self, ObjectCreationError> {
        Self::try_system(id, role)
    }

    pub(crate) fn user(thread: crate::process::UserThread) -> Self {
        Self {
            role: ThreadRole::User,
            user: Some(thread),
        }
    }

    pub(crate) fn role(&self) -> ThreadRole {
        self.role
    }

    pub(crate) fn snapshot(&self) -> ThreadObjectSnapshot {
        ThreadObjectSnapshot(self.role)
    }

    pub(crate) fn user_thread(&self) -> Option<&crate::process::UserThread> {
        self.user.as_ref()
    }
}
