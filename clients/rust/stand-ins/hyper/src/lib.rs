//! Nothing: it stands in for the crate of this name where that is not there, so that cargo can tell which crates a build is of.
