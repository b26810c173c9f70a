//! What is said where no library is found.
#[allow(dead_code)]
#[path = "../build.rs"]
mod build;

#[test]
fn what_is_missing_says_what_to_do() {
    let here = concat!(env!("CARGO_MANIFEST_DIR"), "/src");
    assert_eq!(build::missing("lib.rs", true, Some(here)), None);
    assert_eq!(build::missing("lib.rs", false, Some(here)), None);
    // The linker may find a shared one by itself.
    assert_eq!(build::missing("libcf.so", false, None), None);
    for (told, begins) in [
        (build::missing("libcf.a", false, None), "CF_LIBRARY_DIR isn't set, and pkg-config knows no cf: "),
        (build::missing("libcf.a", true, Some("/no/such")), "CF_LIBRARY_DIR is /no/such, where no libcf.a stands: "),
        (build::missing("libcf.so", true, Some(here)), &format!("CF_LIBRARY_DIR is {here}, where no libcf.so stands: ")),
        (build::missing("libcf.a", false, Some("/usr/none")), "CF_LIBRARY_DIR isn't set, and pkg-config names /usr/none, where no libcf.a stands: "),
    ] {
        let told = told.unwrap();
        assert!(
            told.starts_with(begins) && told.contains("./install --library PREFIX") && told.ends_with("CF_LIBRARY_DIR=PREFIX/lib then"),
            "{told}"
        );
    }
}
