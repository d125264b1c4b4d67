//! Tests of the second evaluator against papers 01 and 000, one module for each chapter.

mod common;

mod commands;
mod constraints;
mod decisions;
mod elements;
mod examples;
mod free_runs;
mod hostile;
mod precedence;
mod readings;
mod refusals;
mod shapes;
mod sizes;
mod standard;
mod store;
mod table;
mod typing;
