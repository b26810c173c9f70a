//! What the tests of `futures` and `tokio` need to run over stages: `oneshot` channels made of one stage each, with the surface of either
//! crate, and the parts of `futures_test` and `tokio_test` that they use. conformance/clients/rust-suites takes the tests from the crates' sources.
pub mod futures_oneshot;
pub mod futures_test;
pub mod tokio_oneshot;
pub mod tokio_test;
