//! A plain RDP-UDP2 endpoint: reading and writing datagrams, and a sender and a receiver above them.

pub mod endpoint;
pub mod numbers;
pub mod receiver;
pub mod refusal;
pub mod sender;
pub mod store;
pub mod vector;
pub mod wire;

#[cfg(test)]
mod tests;
