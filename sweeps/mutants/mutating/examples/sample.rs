//! A shelf of things: what the rules for Rust make of it stands in sample.rs.mutants. `a < b` isn't code here.
use std::collections::HashMap;
use std::sync::{Condvar, Mutex};

const MOST: usize = 0x10;

/// "a < b" in quotes, 'a', '\'' and lifetimes aren't either.
pub struct Shelf<'a> {
    things: Mutex<HashMap<&'a str, u32>>,
    changed: Condvar,
}

impl<'a> Shelf<'a> {
    #[inline(always)]
    pub fn put(&self, name: &'a str, place: u32, most: usize) -> bool {
        let _log = log("put // \" {");
        let mut things = self.things.lock().unwrap();
        if things.len() >= most || name.is_empty() {
            return false;
        }
        things.insert(name, place + 1_000u32);
        self.changed.notify_all();
        if place == 0 {
            things.clear();
        } else {
            things.reserve(1);
        }
        true
    }

    fn first(&self, others: &[&'a str]) -> Option<usize> {
        let things = self.things.lock().unwrap();
        for at in 0..others.len() {
            match things.get(others[at]) {
                Some(place) if *place > 1 => return Some(at),
                Some(_) => {}
                None => continue,
            }
        }
        if let Some(place) = things.get(r#"a "" b"#) {
            return Some(*place as usize);
        }
        None
    }

    fn all(&self) -> Result<(), String> {
        let rest = || self.put("a", 1, 2);
        while rest() && self.first(&["a", "b"]).is_some() {
            log("again");
        }
        self.move_to(1, 2);
        Ok(())
    }

    fn move_to(&self, from: u32, to: u32) {
        self.move_to(to, from);
    }
}

impl Drop for Shelf<'_> {
    fn drop(&mut self) {
        log("dropped");
        self.changed.notify_one();
    }
}

#[cfg(test)]
mod tests {
    #[test]
    fn nothing_here() {
        assert!(1 < 2);
    }
}
