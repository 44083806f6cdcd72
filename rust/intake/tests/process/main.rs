//! The command line, run as a process.

mod command;
mod compare;
mod generated;
mod json;
mod list;
mod list_strip;
mod listed_keys;
mod malformed;
#[cfg(unix)]
mod output;
mod printed;
mod project;
mod reference;
#[path = "../../../limdroven/tests/calls/sections.rs"]
mod sections;
mod strip;
mod strips;
mod usage;
