//! What the tests share: a generator of numbers, the texts that are read, and a tree that is built the plain way.
#![allow(dead_code)]

pub mod naive;
pub mod random;
pub mod texts;
