//! What is asked of engines, and what their errors mean: one file for each of clients/engines, which says what each statement is for.
#[cfg(feature = "etcd")]
pub(crate) mod etcd;
#[cfg(feature = "postgres")]
pub(crate) mod postgres;
#[cfg(feature = "sqlite")]
pub(crate) mod sqlite;
