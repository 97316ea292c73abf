//! The stored traces, met by the proved functions: after each record's line
//! they have hashes of both tables and of the receiver's block.

use std::fmt::Write;
use std::fs;
use std::path::Path;

use model::journal::{hash, Record};
use model::Hypercall;
use rudozhev::words::{boot, hypercall, OBJECT_WORDS, PLACE_WORDS};
use rudozhev::Refusal;

fn trace(bytes: &[u8]) -> String {
    let (mut places, mut objects) = ([0; PLACE_WORDS], [0; OBJECT_WORDS]);
    assert_eq!(boot(&mut places, &mut objects), Ok(0));
    let mut record = Record::empty(Hypercall::Call);
    let (mut rest, mut out, mut index) = (bytes, String::new(), 0);
    let mut write = |line: String| writeln!(out, "{line}").expect("a string takes every write");
    while !rest.is_empty() {
        match record.read(rest) {
            Ok(after) => rest = after,
            Err(stop) => {
                write(stop.to_string());
                break;
            }
        }
        let number = record.hypercall.number();
        let (caller, arguments) = (record.caller, record.arguments);
        let (source, target) = (&record.source, &mut record.target);
        let reply = hypercall(number, caller, arguments, &mut places, &mut objects, source, target);
        let status = reply.err().map_or(0, Refusal::number);
        write(format!("{index} {number} {status} {}", reply.unwrap_or(0)));
        let block: &[u32] = if record.hypercall == Hypercall::Call { target } else { &[] };
        let [places, objects, block] = [&places, &objects[..], block].map(hash);
        write(format!("places {places:016x} objects {objects:016x} block {block:016x}"));
        index += 1;
    }
    write(format!("end {index}"));
    out
}

#[test]
fn every_trace_is_met() {
    let root = Path::new(env!("CARGO_MANIFEST_DIR")).join("..");
    let traces = fs::read_dir(root.join("model/tests/vectors")).expect("the stored traces");
    let mut count = 0;
    let paths = traces.map(|entry| entry.expect("a readable directory").path());
    for path in paths.filter(|path| path.extension().is_some_and(|ending| ending == "trace")) {
        let name = path.file_stem().expect("a name");
        let journal = root.join("crates/replay/data").join(name).with_extension("journal");
        let bytes = fs::read(journal).expect("a readable journal");
        let expected = fs::read_to_string(&path).expect("a readable trace");
        assert!(trace(&bytes) == expected, "{}", path.display());
        count += 1;
    }
    assert_eq!(count, 6);
}
