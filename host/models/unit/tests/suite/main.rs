//! The model against the rules: worked cases, each reason and refusal, and random walks in which every mark occurs and
//! every slip is found.

mod answers;
mod bench;
mod calls;
mod data;
mod frames;
mod images;
mod malformed;
mod managed;
mod marks;
mod pdus;
mod places;
mod plans;
mod plans_listed;
mod refusals;
mod replies;
mod requests;
mod sets;
mod slips;
mod support;
mod table;
mod texts;
mod walk;
