//! Changes start no thread of their own where the caller has the stack for them.
use std::thread;
use std::time::Instant;

use bobbinjade::{Decision, Engine, Error, Files, Request, Uid};

const SCHEMA: &str = r#"{"":{"entityTypes":{"Group":{},"User":{"memberOfTypes":["Group"]}},
    "actions":{"view":{"appliesTo":{"principalTypes":["User"],"resourceTypes":["Group"]}}}}}"#;
const POLICIES: &str = "permit(principal in Group::\"staff\", action, resource);";
const ANN: &[u8] = br#"{"upsert":[{"uid":{"type":"User","id":"ann"},"parents":[{"type":"Group","id":"staff"}]}]}"#;

/// The number of the thread that is started now. The standard library counts those of the process.
fn next_thread() -> u64 {
    let id = thread::spawn(|| format!("{:?}", thread::current().id())).join().unwrap();
    id.trim_matches(|it: char| !it.is_ascii_digit()).parse().unwrap()
}

fn may(engine: &Engine) -> bool {
    engine.decide(&Request::new(Uid::new("User", "ann"), Uid::new("Action", "view"), Uid::new("Group", "staff"))).unwrap()
        == Decision::Allow
}

/// Makes changes a hundred times, and gives how many threads were started for them.
fn started(engine: &Engine) -> u64 {
    let before = next_thread();
    let began = Instant::now();
    for _ in 0..100 {
        assert!(may(&engine.with_changes(ANN).unwrap()));
    }
    println!("{} ns each", began.elapsed().as_nanos() / 100);
    engine.publish_changes(ANN).unwrap();
    next_thread() - before - 1
}

#[test]
fn changes_start_no_threads() {
    let files = Files { schema: SCHEMA.as_bytes(), policies: POLICIES.as_bytes(), entities: b"[]", ..Files::default() };
    let engine = Engine::new(&files).unwrap();
    assert!(!may(&engine));
    if cfg!(target_os = "linux") {
        assert_eq!(started(&engine), 0);
        let other = engine.clone();
        assert_eq!(thread::Builder::new().stack_size(1 << 20).spawn(move || started(&other)).unwrap().join().unwrap(), 0);
    }
    // A thread that lacks the stack has them made on another one. Its own may be that of a thread that has ended, which is at most four times
    // as large.
    let other = engine.clone();
    assert_eq!(thread::Builder::new().stack_size(128 << 10).spawn(move || started(&other)).unwrap().join().unwrap(), 101);
    // The words for changes that are refused take more stack.
    let refused = thread::Builder::new().stack_size(1 << 20).spawn(move || engine.with_changes(b"[]").err().unwrap()).unwrap().join();
    assert!(matches!(refused.unwrap(), Error::Refused(it) if it.number == 502 && it.words.starts_with("error[502]: ")));
}
