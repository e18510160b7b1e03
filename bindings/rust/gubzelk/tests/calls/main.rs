//! Each call of `broker.h` by the safe interface, each refusal, and brokers in threads.
mod complete;
mod deliveries;
mod opening;
mod publishers;
mod refused;
mod rows;
mod sequence;
mod shared;
mod shut;
mod subscriptions;
mod threads;

#[cfg(feature = "changeset")]
mod changesets;
