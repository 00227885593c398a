//! A second model of the section map, written from the documents alone: it
//! answers scripts, makes them, and checks the claim on its own histories.

pub mod choose;
pub mod claim;
pub mod compare;
pub mod damage;
pub mod engine;
pub mod export;
pub mod generate;
pub mod guard;
pub mod list;
pub mod map;
pub mod moves;
pub mod profiles;
pub mod random;
pub mod rounds;
pub mod scenarios;
pub mod script;
pub mod slots;
pub mod step;
pub mod workloads;
