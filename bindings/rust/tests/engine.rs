//! The binding over the examples of this repository: each answer is that of `answers.jsonl`.
use std::fs;
use std::path::PathBuf;
use std::sync::atomic::{AtomicBool, AtomicU64, Ordering};
use std::thread;
use std::time::{Duration, Instant};

use bobbinjade::{explain, validate, Decision, Engine, Error, EvalError, File, Files, Language, Request, Uid};

/// The contents of a folder of examples/.
struct Example {
    schema: Vec<u8>,
    policies: Vec<u8>,
    links: Vec<u8>,
    entities: Vec<u8>,
    requests: String,
    answers: String,
    report: String,
}

impl Example {
    fn files(&self) -> Files<'_> {
        Files { schema: &self.schema, policies: &self.policies, links: &self.links, entities: &self.entities, ..Files::default() }
    }

    fn engine(&self) -> Engine {
        Engine::new(&self.files()).unwrap()
    }
}

fn folder() -> PathBuf {
    PathBuf::from(env!("CARGO_MANIFEST_DIR")).join("../../examples")
}

fn example(name: &str) -> Example {
    let bytes = |file: &str| fs::read(folder().join(name).join(file)).unwrap_or_default();
    let text = |file: &str| String::from_utf8(bytes(file)).unwrap();
    Example {
        schema: bytes("schema.json"),
        policies: bytes("policies.cedar"),
        links: bytes("links.json"),
        entities: bytes("entities.json"),
        requests: text("requests.jsonl"),
        answers: text("answers.jsonl"),
        report: text("report.jsonl"),
    }
}

fn examples() -> Vec<Example> {
    let names = fs::read_dir(folder()).unwrap().map(|it| it.unwrap());
    // An example with options is of the program alone.
    let is_wanted = |it: &PathBuf| it.join("answers.jsonl").exists() && !it.join("options").exists();
    names.filter(|it| is_wanted(&it.path())).map(|it| example(it.file_name().to_str().unwrap())).collect()
}

/// A request of examples/notes.
fn asked<'a>(principal: &'a str, action: &'a str) -> Request<'a> {
    Request::new(Uid::new("User", principal), Uid::new("Action", action), Uid::new("Notebook", "plans"))
}

/// The request that a line of the examples denotes, where its uids are strings without further escapes and its context is last.
fn cut(line: &str) -> Option<(String, String, String, String)> {
    let line = line.strip_prefix("{\"principal\":\"")?.strip_suffix('}')?;
    let (principal, rest) = line.split_once("\\\"\",\"action\":\"")?;
    let (action, rest) = rest.split_once("\\\"\",\"resource\":\"")?;
    let (resource, context) = rest.split_once("\\\"\"")?;
    let context = if context.is_empty() { "" } else { context.strip_prefix(",\"context\":")? };
    let uid = |text: &str| format!("{}\"", text.replace("\\\"", "\""));
    Some((uid(principal), uid(action), uid(resource), context.into()))
}

#[test]
fn lines_are_answered_at_once_and_one_by_one() {
    for it in examples() {
        let engine = it.engine();
        assert_eq!(engine.answer(&it.requests).unwrap(), it.answers);
        assert_eq!(engine.answer_with_entities(&it.requests).unwrap(), it.answers);
        for (line, wanted) in it.requests.lines().zip(it.answers.lines()) {
            assert_eq!(engine.answer_line(line).unwrap(), wanted);
        }
    }
}

#[test]
fn requests_are_answered_by_parts() {
    let mut count = 0;
    for it in examples() {
        let engine = it.engine();
        for (line, wanted) in it.requests.lines().zip(it.answers.lines()) {
            let Some((principal, action, resource, context)) = cut(line) else { continue };
            let uids = [&principal, &action, &resource].map(|it| Uid::parse(it));
            let [Some(principal), Some(action), Some(resource)] = uids else { continue };
            let request = Request::new(principal, action, resource).with_context(context);
            let decided = engine.decide(&request);
            count += 1;
            match engine.authorize(&request) {
                Err(Error::Request(why)) => {
                    assert_eq!(format!("{{\"refused\":{}}}", why.number), wanted);
                    assert!(why.words().starts_with(&format!("error[{}]: ", why.number)), "{}", why.words());
                    assert_eq!(why.words(), engine.explain_line(line, false).unwrap());
                    assert_eq!(decided, Err(Error::Request(why)));
                }
                response => {
                    let response = response.unwrap();
                    assert_eq!(decided.unwrap(), response.decision);
                    assert_eq!(written(&response), wanted);
                }
            }
        }
    }
    assert!(count > 60, "only {count} lines were cut");
}

/// The answer line of a response; the ids of the examples need no escapes.
fn written(response: &bobbinjade::Response) -> String {
    let decision = if response.decision == Decision::Allow { "allow" } else { "deny" };
    let determining: Vec<_> = response.determining.iter().map(|it| format!("\"{it}\"")).collect();
    let name = |error| match error {
        EvalError::Overflow => "overflow",
        EvalError::MissingEntity => "missing_entity",
        _ => "decimal",
    };
    let erring: Vec<_> =
        response.erring.iter().map(|it| format!("{{\"error\":\"{}\",\"policy\":\"{}\"}}", name(it.error), it.policy)).collect();
    format!("{{\"decision\":\"{decision}\",\"determining\":[{}],\"erring\":[{}]}}", determining.join(","), erring.join(","))
}

#[test]
fn reports_are_those_of_the_program() {
    for it in examples() {
        let report = validate(&it.files()).unwrap();
        assert!(report.is_accepted);
        assert_eq!(report.text, it.report);
        assert_eq!(explain(&it.files()).unwrap(), "");
    }
}

#[test]
fn refusals_have_their_words() {
    let it = example("notes");
    let broken = fs::read(folder().join("notes/broken_policies.cedar")).unwrap();
    let files = Files { policies: &broken, ..it.files() };
    let engine = it.engine();
    for error in [Engine::new(&files).unwrap_err(), engine.publish(&files).unwrap_err(), validate(&files).unwrap_err()] {
        let Error::Refused(why) = error else { panic!("{error}") };
        assert_eq!((why.file, why.number, why.offset, why.line), (File::Policies, 201, Some(128), Some(4)));
        assert!(why.words.starts_with("error[201]: the policy text has a syntax error\n"), "{}", why.words);
    }
    assert_eq!(engine.answer(&it.requests).unwrap(), it.answers);

    for (files, wanted) in [
        (Files { schema: b"{", ..it.files() }, (File::Schema, 301)),
        (Files { links: b"{}", ..it.files() }, (File::Links, 502)),
        (Files { entities: b"{}", ..it.files() }, (File::Entities, 502)),
    ] {
        let Err(Error::Refused(why)) = engine.publish(&files) else { panic!("not refused") };
        assert_eq!((why.file, why.number), wanted);
        assert!(why.words.starts_with(&format!("error[{}]: ", wanted.1)), "{}", why.words);
    }
}

/// The example in the language of Cedar 4 has its answers.
#[test]
fn the_example_in_language_4_is_answered() {
    let it = example("shares");
    let engine = Engine::new(&Files { language: Language::Cedar4, ..it.files() }).unwrap();
    assert_eq!(engine.answer(&it.requests).unwrap(), it.answers);
}

/// Files of the language of Cedar 4 are refused in the default language.
#[test]
fn languages_differ() {
    let bytes = |file: &str| fs::read(folder().join("../tests/bindings/language_4").join(file)).unwrap();
    let [schema, policies, entities] = ["schema.json", "policies.cedar", "entities.json"].map(bytes);
    let three = Files { schema: &schema, policies: &policies, entities: &entities, ..Files::default() };
    let four = Files { language: Language::Cedar4, ..three };
    let engine = Engine::new(&four).unwrap();
    for why in [Engine::new(&three).map(drop), engine.publish(&three), validate(&three).map(drop)].map(refusal_of) {
        assert_eq!((why.file, why.number), (File::Schema, 303));
    }
    assert_eq!(engine.answer(bytes("requests.jsonl")).unwrap().into_bytes(), bytes("answers.jsonl"));
    assert!(validate(&four).unwrap().is_accepted);
    assert!(explain(&four).unwrap().is_empty() && !explain(&three).unwrap().is_empty());

    let why = refusal_of(engine.publish_changes(&bytes("refused_changes.json")));
    assert!(why.number == 506 && why.words.contains("upsert entry 0 (from 0), User::\"bob\""), "{}", why.words);
    engine.publish_changes(&bytes("changes.json")).unwrap();
    let bob = Request::new(Uid::new("User", "bob"), Uid::new("Action", "read"), Uid::new("Doc", "d"));
    assert_eq!(engine.decide(&bob), Ok(Decision::Allow));

    let numbered = [0, 2, 3, 4, 5, u32::MAX].map(Language::numbered);
    assert_eq!(numbered, [None, None, Some(Language::Profile), Some(Language::Cedar4), None, None]);
    assert_eq!(Language::default(), Language::Profile);
}

/// Entities of examples/photos in which ann is in no group, and so not a friend of jane.
const NO_FRIENDS: &str = r#"[
    {"uid":{"type":"User","id":"ann"}},
    {"uid":{"type":"Photo","id":"beach"},"attrs":{"owner":{"type":"User","id":"jane"},"private":false},
     "parents":[{"type":"Album","id":"jane_vacation"}]}
]"#;

/// Why a result is refused.
fn refusal_of<T: std::fmt::Debug>(result: Result<T, Error>) -> bobbinjade::Refusal {
    match result {
        Err(Error::Refused(why)) => *why,
        other => panic!("{other:?} is not a refusal"),
    }
}

#[test]
fn entities_are_swapped_alone() {
    let it = example("photos");
    let engine = it.engine();
    let asked = Request::new(Uid::new("User", "ann"), Uid::new("Action", "view"), Uid::new("Photo", "beach"));
    assert_eq!(engine.authorize(&asked).unwrap().determining, ["shared-with-friends"]);
    engine.publish_entities(NO_FRIENDS.as_bytes()).unwrap();
    assert_eq!(written(&engine.authorize(&asked).unwrap()), r#"{"decision":"deny","determining":[],"erring":[]}"#);

    let broken = fs::read(folder().join("photos/broken_entities.json")).unwrap();
    let why = refusal_of(engine.publish_entities(&broken));
    assert_eq!((why.file, why.number, why.offset, why.line), (File::Entities, 506, None, Some(3)));
    assert!(why.words.starts_with("error[506]: an attribute is not declared\n"), "{}", why.words);
    assert_eq!(why, refusal_of(engine.publish(&Files { entities: &broken, ..it.files() })));
    assert_eq!(refusal_of(engine.publish_entities(b"")).number, 501);
    assert_eq!(engine.decide(&asked), Ok(Decision::Deny));

    // The beach is not stored, and `private` reads an attribute of it.
    engine.clone().publish_entities(b"[]").unwrap();
    let wanted = r#"{"decision":"deny","determining":[],"erring":[{"error":"missing_entity","policy":"private"}]}"#;
    assert_eq!(written(&engine.authorize(&asked).unwrap()), wanted);
    engine.close();
    assert_eq!(engine.publish_entities(&it.entities), Err(Error::Closed));
}

#[test]
fn swapped_entities_answer_as_published_ones() {
    for it in examples() {
        let engine = Engine::new(&Files { entities: b"[]", ..it.files() }).unwrap();
        engine.publish_entities(&it.entities).unwrap();
        assert_eq!(engine.answer(&it.requests).unwrap(), it.answers);
    }
}

#[test]
fn faults_have_their_report() {
    let it = example("notes");
    let policies = "permit(principal, action, resource) when { principal.age > 1 };".repeat(200);
    let files = Files { policies: policies.as_bytes(), ..it.files() };
    let Err(Error::Faults(faults)) = Engine::new(&files) else { panic!("no faults") };
    assert!(faults.report.ends_with("{\"faults\":600,\"warnings\":0}\n"), "{}", faults.report);
    assert!(faults.report.len() > 4096);
    assert!(faults.words.starts_with("error[603]: "), "{}", faults.words);
    let report = validate(&files).unwrap();
    assert!(!report.is_accepted);
    assert_eq!(report.text, faults.report);
}

#[test]
fn an_answer_of_any_length_fits() {
    let it = example("notes");
    let policies: String =
        (0..400).map(|at| format!("@id(\"a long name of a policy, number {at}\") permit(principal, action, resource);")).collect();
    let engine = Engine::new(&Files { policies: policies.as_bytes(), ..it.files() }).unwrap();
    assert_eq!(engine.authorize(&asked("bob", "read")).unwrap().determining.len(), 400);
    let line = engine.answer_line(it.requests.lines().next().unwrap()).unwrap();
    assert!(line.len() > 10_000 && line.ends_with('}'));
}

#[test]
fn closing_twice_is_safe() {
    let it = example("notes");
    let engine = it.engine();
    let clone = engine.clone();
    assert_eq!(clone.decide(&asked("ann", "write")), Ok(Decision::Allow));
    engine.close();
    engine.close();
    assert_eq!(clone.decide(&asked("ann", "write")), Err(Error::Closed));
    assert_eq!(clone.authorize(&asked("ann", "write")), Err(Error::Closed));
    assert_eq!(clone.answer_line(""), Err(Error::Closed));
    assert_eq!(clone.answer_with_entities(""), Err(Error::Closed));
    assert_eq!(clone.publish(&it.files()), Err(Error::Closed));
}

#[test]
fn uids_are_parsed() {
    assert_eq!(Uid::parse("A::B::\"c d\""), Some(Uid::new("A::B", "c d")));
    assert_eq!(Uid::parse("A::\"\""), Some(Uid::new("A", "")));
    for text in ["", "A", "A::", "A::\"", "::\"a\"", "A:\"a\"", "A ::\"a\"", "A::\"a\\\"b\"", "A::\"a\"b\"", "A::::\"a\""] {
        assert_eq!(Uid::parse(text), None, "{text}");
    }
}

#[test]
fn a_uid_that_is_not_one_is_refused() {
    let engine = example("notes").engine();
    let request = Request::new(Uid::new("no name", "ann"), Uid::new("Action", "write"), Uid::new("Notebook", "plans"));
    assert_eq!(refused(engine.decide(&request)).0, 502);
    assert_eq!(refused(engine.decide(&asked("ann", "write").with_context("["))).0, 501);
    assert_eq!(refused(engine.decide(&asked("ann", "write").with_context("{\"n\":1}"))).0, 506);
    let words = "error[510]: an action is not declared\n --> request\n   = action: Action::\"fly\" is not declared\n";
    assert_eq!(refused(engine.decide(&asked("ann", "fly"))), (510, words.to_string()));
    let error = engine.authorize(&asked("ann", "fly")).unwrap_err();
    assert_eq!(error.to_string(), words.trim_end());
    engine.close();
    assert_eq!(error.to_string(), "the request is refused: 510");
    assert_eq!(refused(Err(error)), (510, String::new()));
}

/// The number and the words with which a request is refused.
fn refused(result: Result<Decision, Error>) -> (u32, String) {
    match result {
        Err(Error::Request(why)) => (why.number, why.words()),
        other => panic!("{other:?} is not refused"),
    }
}

#[test]
fn a_refused_line_has_words() {
    let engine = example("notes").engine();
    let line =
        |more: &str| format!(r#"{{"principal":"User::\"ann\"","action":"Action::\"write\"","resource":"Notebook::\"plans\""{more}}}"#);
    assert_eq!(engine.explain_line(line(""), false).unwrap(), "");
    let brings = line(r#","entities":[{"uid":{"type":"Ghost","id":"g"}}]"#);
    assert!(engine.explain_line(&brings, false).unwrap().starts_with("error[502]: "));
    assert!(engine.explain_line(&brings, true).unwrap().starts_with("error[503]: "));
    engine.close();
    assert_eq!(engine.explain_line(&brings, true), Err(Error::Closed));
}

#[test]
fn an_engine_crosses_threads() {
    fn crosses<T: Send + Sync + Clone + 'static>(_: &T) {}
    crosses(&example("notes").engine());
}

/// How many versions have an id of their own.
const VERSIONS: u64 = 1000;

/// The policies of a version, whose id has its number. Even versions permit, and odd ones forbid.
fn version(number: u64) -> String {
    let effect = if number % 2 == 0 { "permit" } else { "forbid" };
    format!("@id(\"{}\") {effect}(principal, action, resource);", number % VERSIONS)
}

/// Asks until the end, and checks that each answer is that of a version that was current during its call. Gives the count of answers.
fn ask(engine: &Engine, begun: &AtomicU64, done: &AtomicU64, is_over: &AtomicBool) -> u64 {
    let mut count = 0;
    while !is_over.load(Ordering::SeqCst) {
        let first = done.load(Ordering::SeqCst);
        let response = engine.authorize(&asked("ann", "write")).unwrap();
        let last = begun.load(Ordering::SeqCst);
        let answered: u64 = response.determining[0].parse().unwrap();
        assert!((first..=last).any(|it| it % VERSIONS == answered), "{answered} is not in {first} to {last}");
        assert_eq!(response.decision == Decision::Allow, answered % 2 == 0);
        count += 1;
    }
    count
}

/// Eight threads ask while versions are published and, on another thread, something else is done again and again.
fn swap(engine: &Engine, publish: impl Fn(u64), meanwhile: impl Fn() + Sync) {
    let (begun, done, is_over) = (AtomicU64::new(0), AtomicU64::new(0), AtomicBool::new(false));
    let seconds: u64 = std::env::var("BOBBINJADE_SECONDS").ok().and_then(|it| it.parse().ok()).unwrap_or(1);
    let count: u64 = thread::scope(|scope| {
        let asking: Vec<_> = (0..8).map(|_| scope.spawn(|| ask(engine, &begun, &done, &is_over))).collect();
        scope.spawn(|| {
            while !is_over.load(Ordering::SeqCst) {
                meanwhile();
            }
        });
        let began = Instant::now();
        for number in 1.. {
            if began.elapsed() > Duration::from_secs(seconds) {
                break;
            }
            begun.store(number, Ordering::SeqCst);
            publish(number);
            done.store(number, Ordering::SeqCst);
        }
        is_over.store(true, Ordering::SeqCst);
        asking.into_iter().map(|it| it.join().unwrap()).sum()
    });
    println!("{count} answers, {} versions", done.load(Ordering::SeqCst));
    assert!(count > 8 && done.load(Ordering::SeqCst) > 1);
}

/// Entities that are published alone meanwhile bring no older policies back.
#[test]
fn versions_swap_while_requests_run() {
    let it = example("notes");
    let engine = Engine::new(&Files { policies: version(0).as_bytes(), ..it.files() }).unwrap();
    let publish = |number| engine.publish(&Files { policies: version(number).as_bytes(), ..it.files() }).unwrap();
    swap(&engine, publish, || engine.publish_entities(b"[]").unwrap());
}

/// Ann is in the group of the number of the version, and each group has a policy. Entities that are refused meanwhile change nothing.
#[test]
fn entities_swap_while_requests_run() {
    const SCHEMA: &[u8] = br#"{"":{"entityTypes":{"Group":{},"User":{"memberOfTypes":["Group"]},"Notebook":{}},
        "actions":{"write":{"appliesTo":{"principalTypes":["User"],"resourceTypes":["Notebook"]}}}}}"#;
    let policies: String = (0..VERSIONS).map(|at| version(at).replace("principal", &format!("principal in Group::\"{at}\""))).collect();
    let entities = |number| {
        format!(r#"[{{"uid":{{"type":"User","id":"ann"}},"parents":[{{"type":"Group","id":"{}"}}]}}]"#, number % VERSIONS).into_bytes()
    };
    let files = Files { schema: SCHEMA, policies: policies.as_bytes(), entities: &entities(0), ..Files::default() };
    let engine = Engine::new(&files).unwrap();
    swap(&engine, |number| engine.publish_entities(&entities(number)).unwrap(), || drop(engine.publish_entities(b"{}").unwrap_err()));
}

/// The same by changes, while another thread asks over changes of its own.
#[test]
fn changes_swap_while_requests_run() {
    const SCHEMA: &[u8] = br#"{"":{"entityTypes":{"Group":{},"User":{"memberOfTypes":["Group"]},"Notebook":{}},
        "actions":{"write":{"appliesTo":{"principalTypes":["User"],"resourceTypes":["Notebook"]}}}}}"#;
    let policies: String = (0..VERSIONS).map(|at| version(at).replace("principal", &format!("principal in Group::\"{at}\""))).collect();
    let changes = |number| {
        let parent = number % VERSIONS;
        format!(r#"{{"upsert":[{{"uid":{{"type":"User","id":"ann"}},"parents":[{{"type":"Group","id":"{parent}"}}]}}]}}"#).into_bytes()
    };
    let files = Files { schema: SCHEMA, policies: policies.as_bytes(), entities: b"[]", ..Files::default() };
    let engine = Engine::new(&files).unwrap();
    engine.publish_changes(&changes(0)).unwrap();
    swap(
        &engine,
        |number| engine.publish_changes(&changes(number)).unwrap(),
        || {
            let other = engine.with_changes(br#"{"remove":[{"type":"User","id":"ann"}]}"#).unwrap();
            assert!(other.authorize(&asked("ann", "write")).unwrap().determining.is_empty());
            drop(engine.publish_changes(b"[]").unwrap_err());
        },
    );
}
