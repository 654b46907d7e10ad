//! The command `kadvitul`: what it prints, whole; generated rules, with both solvers; and what its parts say of one
//! another.

mod generated;
mod help;
mod model;
mod paths;
mod program;
mod readable;
mod solvers;
mod transcripts;
