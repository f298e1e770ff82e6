//! Stand-in for kernel objects: the ways their creation fails.
#![allow(dead_code)]

#[derive(Clone, Copy, Debug, Eq, PartialEq)]
pub enum ObjectCreationError {
    Allocation,
    KoidExhausted,
    RegistrationExhausted,
}
