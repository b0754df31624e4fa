//! An engine that nobody uses any more is freed, also while requests run: memory does not grow with publications.
#![cfg(target_os = "linux")]
use std::fmt::Write;
use std::fs;
use std::sync::atomic::{AtomicBool, Ordering};
use std::thread;
use std::time::Duration;

use bobbinjade::{Decision, Engine, Files, Request, Uid};

const PUBLICATIONS: usize = 100;
/// The memory that is allowed beside twice one engine, in bytes.
const ALLOWED: usize = 32 << 20;

const SCHEMA: &str = r#"{"":{"entityTypes":{"Group":{},"User":{"memberOfTypes":["Group"],"shape":{"type":"Record","attributes":
    {"name":{"type":"String"}}}}},"actions":{"view":{"appliesTo":{"principalTypes":["User"],"resourceTypes":["Group"]}}}}}"#;
const POLICIES: &str = "permit(principal in Group::\"group7\", action, resource);";

/// The bytes of this process that are resident, in pages of 4 KiB or more.
fn resident() -> usize {
    let text = fs::read_to_string("/proc/self/status").unwrap();
    let line = text.lines().find_map(|it| it.strip_prefix("VmRSS:")).unwrap();
    line.trim().trim_end_matches(" kB").parse::<usize>().unwrap() << 10
}

/// 500 groups, and 10,000 users with names, each in one of them: 2.1 MB.
fn entities() -> String {
    let mut text = String::from("[");
    for at in 0..500 {
        write!(text, r#"{{"uid":{{"type":"Group","id":"group{at}"}}}},"#).unwrap();
    }
    for at in 0..10_000 {
        let (name, group) = ("x".repeat(100), at % 500);
        let parents = format!(r#"[{{"type":"Group","id":"group{group}"}}]"#);
        write!(text, r#"{{"uid":{{"type":"User","id":"user{at}"}},"attrs":{{"name":"{name}"}},"parents":{parents}}},"#).unwrap();
    }
    text.pop();
    text + "]"
}

#[test]
fn old_engines_are_freed() {
    let entities = entities();
    let before = resident();
    let files = Files { schema: SCHEMA.as_bytes(), policies: POLICIES.as_bytes(), entities: entities.as_bytes(), ..Files::default() };
    let engine = Engine::new(&files).unwrap();
    let one = resident() - before;
    let is_over = AtomicBool::new(false);
    let after = thread::scope(|scope| {
        for _ in 0..16 {
            scope.spawn(|| {
                let request = Request::new(Uid::new("User", "user7"), Uid::new("Action", "view"), Uid::new("Group", "group1"));
                while !is_over.load(Ordering::Relaxed) {
                    assert_eq!(engine.decide(&request).unwrap(), Decision::Allow);
                    thread::sleep(Duration::from_millis(1));
                }
            });
        }
        let published: Vec<_> = (0..PUBLICATIONS).map(|_| engine.publish_entities(entities.as_bytes())).collect();
        let after = resident();
        is_over.store(true, Ordering::Relaxed);
        assert!(published.iter().all(Result::is_ok));
        after
    });
    println!("{} MB before, one engine {} MB, {} MB after {PUBLICATIONS} publications", before >> 20, one >> 20, after >> 20);
    assert!(after <= before + 2 * one + ALLOWED, "{} MB are resident", after >> 20);
}
