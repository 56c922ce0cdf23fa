//! The example scripts write exactly what is expected, except the one that is wrong on purpose.

use std::fs;
use std::path::Path;

#[test]
fn examples_write_what_is_expected() {
    let folder = Path::new(env!("CARGO_MANIFEST_DIR")).join("../../crates/examples/data");
    let mut met = 0;
    for file in fs::read_dir(&folder).unwrap() {
        let path = file.unwrap().path();
        if path.extension().is_none_or(|extension| extension != "script") {
            continue;
        }
        let expected = fs::read(path.with_extension("expected")).unwrap();
        let mut written = Vec::new();
        twin::run(&fs::read(&path).unwrap(), &mut written);
        let wrong_on_purpose = path.file_stem().is_some_and(|name| name == "control");
        assert_eq!(written == expected, !wrong_on_purpose, "{}", path.display());
        met += 1;
    }
    assert!(met >= 15, "only {met} examples in {}", folder.display());
}
