//! What the tests share. Nothing here calls the crate but the configurations, which the crate asks.

#![allow(dead_code)]

pub mod configs;
pub mod dynamic;
pub mod families;
pub mod frame;
pub mod orders;
pub mod outcomes;
pub mod random;
pub mod reading;
pub mod searches;
pub mod worked;
pub mod writing;
