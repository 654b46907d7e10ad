//! Holds libkadvitul.a and the slice printer to a model written from document 01 and its requests alone, which shares
//! nothing with them. And the command `kadvitul` over them, which does not use the model.

pub mod agreement;
pub mod answer;
pub mod archive;
pub mod broken;
pub mod case;
pub mod cases;
pub mod check;
pub mod checks;
pub mod cli;
pub mod command;
pub mod encoding;
pub mod generate;
pub mod hex;
pub mod hold;
pub mod listing;
pub mod model;
pub mod parts;
pub mod process;
pub mod program;
pub mod shrink;
pub mod solver;
pub mod solving;
pub mod statement;
pub mod verdict;
pub mod written;
