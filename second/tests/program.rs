//! The program as it is started.

mod common;
use common::*;
use std::path::{Path, PathBuf};
use std::process::{Command, Output, Stdio};

const PROGRAM: &str = env!("CARGO_BIN_EXE_second");

fn second(args: &[&str]) -> Output {
    Command::new(PROGRAM).args(args).output().unwrap()
}

/// An empty folder of its own for a test.
fn folder(name: &str) -> PathBuf {
    let path = Path::new(env!("CARGO_TARGET_TMPDIR")).join(name);
    let _ = std::fs::remove_dir_all(&path);
    std::fs::create_dir_all(&path).unwrap();
    path
}

fn write(folder: &Path, text: &str) {
    let t = tables(text);
    std::fs::write(folder.join("symbols"), t.symbols).unwrap();
    std::fs::write(folder.join("rules"), t.rules).unwrap();
    std::fs::write(folder.join("query"), t.query).unwrap();
}

fn printed(folder: &Path) -> String {
    let out = second(&["run", folder.to_str().unwrap()]);
    assert!(out.stderr.is_empty());
    String::from_utf8(out.stdout).unwrap()
}

#[test]
fn wrong_usage() {
    for args in [
        &[][..],
        &["walk"],
        &["run"],
        &["batch", "x"],
        &["gen", "1", "2"],
        &["gen", "x", "2", "small"],
        &["gen", "1", "2", "odd"],
        &["text", "x"],
        &["show"],
    ] {
        let out = second(args);
        assert_eq!(out.status.code(), Some(2), "{args:?}");
        assert!(out.stdout.is_empty());
        assert!(out.stderr.starts_with(b"usage: "));
    }
}

#[test]
fn r2_files_that_cannot_be_read() {
    let at = folder("files");
    assert_eq!(printed(&at), "refused 2 65535\n");
    write(&at, "attacker(s). ?- attacker(s).");
    assert_eq!(printed(&at), "derivable 1 2 1\n0 0 attacker(s)\n");
    std::fs::remove_file(at.join("query")).unwrap();
    assert_eq!(printed(&at), "refused 4 65535\n");
    std::fs::remove_file(at.join("rules")).unwrap();
    assert_eq!(printed(&at), "refused 3 65535\n");
    // A folder opens and can't be read; the tables before it are not judged.
    std::fs::create_dir(at.join("rules")).unwrap();
    std::fs::write(at.join("symbols"), b"bad").unwrap();
    assert_eq!(printed(&at), "refused 3 65535\n");
}

#[test]
fn files_past_their_limits() {
    let at = folder("limits");
    write(&at, "attacker(s). ?- attacker(s).");
    std::fs::write(at.join("query"), vec![0; 5_000_000]).unwrap();
    assert_eq!(printed(&at), "refused 4 0\n");
    std::fs::write(at.join("rules"), vec![0; 5_000_000]).unwrap();
    assert_eq!(printed(&at), "refused 3 65535\n");
    std::fs::write(at.join("symbols"), vec![0; 5_000_000]).unwrap();
    assert_eq!(printed(&at), "refused 2 65535\n");
}

#[test]
fn text_then_run_then_show() {
    let at = folder("text");
    let file = at.join("ds.pl");
    std::fs::write(&file, DENNING_SACCO).unwrap();
    let out = at.join("tables");
    let (file, out) = (file.to_str().unwrap(), out.to_str().unwrap());
    assert!(second(&["text", file, out]).status.success());
    assert!(printed(Path::new(out)).starts_with("derivable 32 3 9\n0 7 attacker(pk(ska))\n"));
    let shown = second(&["show", out]);
    assert!(shown.status.success());
    assert_eq!(
        tables(&String::from_utf8(shown.stdout).unwrap()),
        tables(DENNING_SACCO)
    );
    std::fs::write(file, "attacker(a).\n?- p.").unwrap();
    let bad = second(&["text", file, out]);
    assert_eq!(bad.status.code(), Some(1));
    let said = String::from_utf8(bad.stderr).unwrap();
    assert!(said.contains(":2:4: "), "{said}");
}

#[test]
fn what_cannot_be_shown() {
    let at = folder("show");
    let out = second(&["show", at.to_str().unwrap()]);
    assert_eq!(out.status.code(), Some(1));
    assert!(out.stdout.is_empty());
    assert_eq!(out.stderr, b"second: refused 2 65535\n");
}

fn batch(stream: Vec<u8>) -> String {
    let mut child = Command::new(PROGRAM)
        .arg("batch")
        .stdin(Stdio::piped())
        .stdout(Stdio::piped())
        .spawn()
        .unwrap();
    let mut stdin = child.stdin.take().unwrap();
    let feed = std::thread::spawn(move || {
        let _ = std::io::Write::write_all(&mut stdin, &stream);
    });
    let out = child.wait_with_output().unwrap();
    feed.join().unwrap();
    assert!(out.status.success());
    String::from_utf8(out.stdout).unwrap()
}

#[test]
fn gen_feeds_batch() {
    let stream = second(&["gen", "3", "40", "all"]).stdout;
    let out = batch(stream.clone());
    assert!(!out.contains("bad case"));
    let cases = (0..40).map(|n| second::gen::case(3, n, second::gen::Kind::All));
    let wanted: String = cases.map(|c| second::stream::answer(&c)).collect();
    assert_eq!(out, wanted);
    let mut broken = stream;
    broken.push(7);
    assert_eq!(batch(broken), out + "bad case\n");
}

#[test]
fn a_deep_derivation_needs_little_stack() {
    let at = folder("deep");
    let clauses = second::gen::counter::clauses(11, 511);
    write(&at, &(clauses.join("\n") + "?- attacker(s)."));
    let script = format!("ulimit -s 2048 && exec {PROGRAM} run {}", at.display());
    let out = Command::new("sh").args(["-c", &script]).output().unwrap();
    assert_eq!(String::from_utf8(out.stdout).unwrap(), "room 9 512 2 256\n");
}

#[test]
fn hostile_cases_need_little_stack() {
    let script = format!("ulimit -s 2048; {PROGRAM} gen 5 72 hostile | {PROGRAM} batch");
    let out = Command::new("sh").args(["-c", &script]).output().unwrap();
    assert!(out.stderr.is_empty());
    assert_eq!(out.stdout.iter().filter(|b| **b == b'\n').count(), 4 * 72);
}
