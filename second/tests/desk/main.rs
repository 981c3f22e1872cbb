//! Tests of the second reader, by the sections of document 01.

mod batches;
mod build;
mod clients;
mod closings;
mod comparing;
mod day;
mod judging;
mod keying;
mod listings;
mod places;
mod reading;
mod refusals;
mod replies;
mod resolver;
mod script;
mod signing;
mod tables;
