//! Written by clients/engines/generate: change clients/engines/etcd.codes.

/// Whether etcd refuses something for good, by its code and text.
pub(crate) fn is_refused(code: i64, text: &str) -> bool {
    code == 3 || code == 8 && text.contains("larger than max") || code == 9
}
