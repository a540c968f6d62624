//! How to use a machine, in three pages: [`machines`], [`procedures`], [`stores`].

pub mod machines;
pub mod procedures;
pub mod stores;
