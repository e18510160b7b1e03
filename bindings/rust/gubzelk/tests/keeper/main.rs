//! Each call of `gubzelk.h` by the safe interface, each refusal, values of each class, threads, and processes that are
//! killed.
mod killed;
mod large;
mod raw;
mod replica;
mod shared;
mod source;
mod statements;
mod threads;
mod transaction;
mod values;
