//! Another library than the one that these crates were written for. What the library tells of itself this program answers in its place: the
//! linker takes these functions, and so not the library's.
use cf_graph::*;
use std::collections::HashMap;
use std::ffi::CStr;
use std::os::raw::c_char;
use std::sync::Mutex;

/// Whether the library is of a version that fits, and the sizes and offsets of which it knows.
static TOLD: Mutex<Option<(bool, HashMap<String, usize>)>> = Mutex::new(None);

#[no_mangle]
extern "C" fn cf_fits(_major: u32, _minor: u32) -> bool {
    TOLD.lock().unwrap().as_ref().map_or(false, |told| told.0)
}

/// # Safety
///
/// `name` is a text with a zero byte behind it.
#[no_mangle]
unsafe extern "C" fn cf_layout(name: *const c_char) -> usize {
    // SAFETY: as this function asks.
    let name = unsafe { CStr::from_ptr(name) }.to_str().unwrap();
    TOLD.lock().unwrap().as_ref().and_then(|told| told.1.get(name).copied()).unwrap_or(usize::MAX)
}

fn refuses_all() {
    assert_eq!(PlanBuilder::new().err(), Some(Refused::OTHER_LIBRARY));
    assert_eq!(Event::from_word(7 << 56), Err(Refused::OTHER_LIBRARY));
    assert_eq!(Event { who: 0, call: Call::Cancel(0) }.word(), Err(Refused::OTHER_LIBRARY));
    assert_eq!(run_script(b"[]"), Err(ScriptFault::Refused(Refused::OTHER_LIBRARY)));
    assert_eq!(outcome_text(None), "the library isn't the one that this crate was written for");
    assert_eq!(Refused::NO_STAGE.name(), "");
    assert_eq!(Refused::NO_STAGE.to_string(), "a stage that the call names isn't there");
}

/// No call is made of a library of another version, nor of one that has another size or offset anywhere.
#[test]
fn another_library_is_never_called() {
    assert_eq!(cf_sys::mismatch(), Some("version"));
    refuses_all();
    *TOLD.lock().unwrap() = Some((true, HashMap::new()));
    let mut names = 0;
    while let Some(name) = cf_sys::mismatch() {
        refuses_all();
        // One answer alone is right.
        let right = (0..200).find(|&bytes| {
            TOLD.lock().unwrap().as_mut().unwrap().1.insert(name.to_string(), bytes);
            cf_sys::mismatch() != Some(name)
        });
        assert!(right.is_some(), "{name}");
        names += 1;
    }
    assert_eq!(names, 188);
    assert!(PlanBuilder::new().unwrap().build().unwrap().graph(0).is_ok());
}
