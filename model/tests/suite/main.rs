//! Tests of the model, by subject.

mod chains;
mod checks;
mod damage;
mod dumps;
mod examples;
mod found_tables;
mod generator;
mod history;
mod information_page;
mod journals;
mod messages;
mod object_uses;
mod page_uses;
mod pages;
mod programs;
mod reasons;
mod totality;
mod vectors;
mod world;
