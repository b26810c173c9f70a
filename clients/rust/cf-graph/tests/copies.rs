//! Two copies of the library in one process, the linked one and a shared one, as where another language's binding has its own. Neither knows of
//! the other, and each frees what is its own.
use cf_graph::{Form, Outcome, PlanBuilder, Value};
use cf_sys::{cf_handle, cf_outcome, cf_reply, cf_value};
use std::ffi::CString;
use std::mem::transmute_copy;
use std::os::raw::{c_char, c_int, c_void};
use std::path::Path;
use std::thread;

extern "C" {
    fn dlopen(name: *const c_char, mode: c_int) -> *mut c_void;
    fn dlsym(library: *mut c_void, name: *const c_char) -> *mut c_void;
}

const NOW: c_int = 2;

/// A call of the other copy.
///
/// # Safety
///
/// `C` is the type of the call.
unsafe fn call<C: Copy>(library: *mut c_void, name: &str) -> C {
    let name = CString::new(name).unwrap();
    // SAFETY: the name ends in a zero byte.
    let found = unsafe { dlsym(library, name.as_ptr()) };
    assert!(!found.is_null(), "{name:?}");
    // SAFETY: a pointer to a function, as the caller says.
    unsafe { transmute_copy(&found) }
}

/// One request by the other copy's calls.
///
/// # Safety
///
/// The library is libcf.
unsafe fn done_by(library: *mut c_void, number: i32) -> i32 {
    let (mut plan, mut graph) = (cf_handle::EMPTY, cf_handle::EMPTY);
    let (mut stage, mut reply, mut outcome) = (0, cf_reply::default(), cf_outcome::default());
    // SAFETY: pointers are to locals, and the types are those that cf-sys declares.
    unsafe {
        let new: unsafe extern "C" fn(*mut cf_handle, u16, u16) -> u32 = call(library, "cf_builder_new");
        let add: unsafe extern "C" fn(*mut cf_handle, u32, *const u16, usize, u32, *mut u16) -> u32 = call(library, "cf_builder_stage");
        let build: unsafe extern "C" fn(*mut cf_handle) -> u32 = call(library, "cf_build");
        let open: unsafe extern "C" fn(*mut cf_handle, u16, *mut cf_handle) -> u32 = call(library, "cf_graph_new");
        let complete: unsafe extern "C" fn(*mut cf_handle, u16, cf_value, *mut cf_reply) -> u32 = call(library, "cf_complete");
        let get: unsafe extern "C" fn(*mut cf_handle, u16, *mut cf_outcome) -> u32 = call(library, "cf_get");
        let free: unsafe extern "C" fn(*mut cf_handle) = call(library, "cf_free");
        assert_eq!(new(&mut plan, 0, 0), 0);
        assert_eq!(add(&mut plan, 0, std::ptr::null(), 0, cf_sys::CF_NO_FUNCTION, &mut stage), 0);
        assert_eq!((build(&mut plan), open(&mut plan, 0, &mut graph)), (0, 0));
        free(&mut plan);
        assert_eq!(complete(&mut graph, stage, cf_value { kind: cf_sys::CF_INT, number }, &mut reply), 0);
        assert_eq!((get(&mut graph, stage, &mut outcome), reply.answer), (0, 1));
        free(&mut graph);
    }
    outcome.value.number
}

#[test]
fn two_copies_do_not_meet() {
    let path = Path::new(&std::env::var("CF_LIBRARY_DIR").unwrap_or_default()).join("libcf.so");
    if !path.exists() {
        return eprintln!("left out: there is no shared library beside the linked one");
    }
    let name = CString::new(path.to_str().unwrap()).unwrap();
    // SAFETY: the name ends in a zero byte.
    let library = unsafe { dlopen(name.as_ptr(), NOW) } as usize;
    assert_ne!(library, 0, "{}", path.display());
    let threads: Vec<_> = (0..4)
        .map(|k| {
            thread::spawn(move || {
                for number in 0..200 {
                    let mut builder = PlanBuilder::new().unwrap();
                    builder.stage(Form::Source, &[], None).unwrap();
                    let mut graph = builder.build().unwrap().graph(0).unwrap();
                    // SAFETY: it is libcf.
                    assert_eq!(unsafe { done_by(library as *mut c_void, number + k) }, number + k);
                    graph.complete(0, Value::Int(number)).unwrap();
                    assert_eq!(graph.outcome(0), Ok(Some(Outcome::Value(Value::Int(number)))));
                }
            })
        })
        .collect();
    threads.into_iter().for_each(|thread| thread.join().unwrap());
}
