//! The command `skarnuth`: from a readable table to words, plans and explanations. Every plan, set, sequence and refusal comes from the proved
//! code (`proved`); what is here reads names, checks itself, and puts names to the answers.

pub mod arguments;
pub mod check;
pub mod command;
pub mod cycle;
pub mod dot;
pub mod explain;
pub mod grammar;
pub mod limits;
pub mod list;
pub mod printer;
pub mod proved;
pub mod refusal;
pub mod relations;
pub mod role;
pub mod table;
pub mod text;
pub mod words;
