//! For which targets the build script links the archive.

#[allow(dead_code)]
#[path = "../build.rs"]
mod script;

use script::unfit;

#[test]
fn x86_64_with_system_v_is_linked() {
    assert_eq!(unfit("x86_64", "64", "linux"), None);
    assert_eq!(unfit("x86_64", "64", "none"), None);
}

#[test]
fn another_machine_is_named() {
    for (target, named) in [
        (["aarch64", "64", "linux"], "aarch64"),
        (["x86", "32", "linux"], "x86 "),
        (["x86_64", "32", "linux"], "32 bits"),
        (["x86_64", "64", "windows"], "windows"),
    ] {
        let [architecture, pointer_width, system] = target;
        let reason = unfit(architecture, pointer_width, system).expect("a reason");
        assert!(reason.contains(named) && reason.contains("librudozhev.a"), "{reason}");
    }
}
