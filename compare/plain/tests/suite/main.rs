//! Tests of the crate from outside, one subject a module.

mod any;
mod common;
mod damage;
mod examples;
mod lines;
mod packets;
mod peer;
mod programs;
mod ranges;
mod rows;
mod states;
mod stream;
mod sync;
mod unfit;
