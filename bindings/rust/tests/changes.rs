//! Changes of entities. Staff may view. Bob is in the team, and the team in the staff. Ann is not stored.
use std::fs;
use std::path::PathBuf;

use bobbinjade::{Decision, Engine, Error, File, Files, Language, Request, Uid};

const SCHEMA: &str = r#"{"":{"entityTypes":{"Group":{"memberOfTypes":["Group"]},"User":{"memberOfTypes":["Group"],
    "shape":{"type":"Record","attributes":{"age":{"type":"Long"}}}}},
    "actions":{"view":{"appliesTo":{"principalTypes":["User"],"resourceTypes":["Group"]}}}}}"#;
const POLICIES: &str = "@id(\"staff\") permit(principal in Group::\"staff\", action, resource);";

fn uid(type_name: &str, id: &str) -> String {
    format!(r#"{{"type":"{type_name}","id":"{id}"}}"#)
}

fn entry(type_name: &str, id: &str, attrs: &str, parents: &[&str]) -> String {
    let parents: Vec<_> = parents.iter().map(|it| uid("Group", it)).collect();
    format!(r#"{{"uid":{},"attrs":{attrs},"parents":[{}]}}"#, uid(type_name, id), parents.join(","))
}

fn ann() -> String {
    entry("User", "ann", r#"{"age":30}"#, &["team"])
}

fn upsert(entries: &[String]) -> String {
    format!(r#"{{"upsert":[{}]}}"#, entries.join(","))
}

fn remove(uids: &[String]) -> String {
    format!(r#"{{"remove":[{}]}}"#, uids.join(","))
}

fn engine() -> Engine {
    let bob = entry("User", "bob", r#"{"age":1}"#, &["team"]);
    let entities = [entry("Group", "staff", "{}", &[]), entry("Group", "team", "{}", &["staff"]), bob].join(",");
    let entities = format!("[{entities}]");
    let files = Files { schema: SCHEMA.as_bytes(), policies: POLICIES.as_bytes(), entities: entities.as_bytes(), ..Files::default() };
    Engine::new(&files).unwrap()
}

fn may(engine: &Engine, who: &str) -> bool {
    let request = Request::new(Uid::new("User", who), Uid::new("Action", "view"), Uid::new("Group", "staff"));
    engine.decide(&request).unwrap() == Decision::Allow
}

/// Whether ann may view, and whether bob may.
fn who(engine: &Engine) -> (bool, bool) {
    (may(engine, "ann"), may(engine, "bob"))
}

#[test]
fn the_next_decision_sees_a_change() {
    let engine = engine();
    let before = engine.with_changes(b"{}").unwrap();
    assert_eq!(who(&engine), (false, true));
    engine.publish_changes(upsert(&[ann()]).as_bytes()).unwrap();
    assert_eq!((who(&engine), who(&before)), ((true, true), (false, true)));
    engine.publish_changes(remove(&[uid("User", "ann"), uid("User", "nobody")]).as_bytes()).unwrap();
    assert_eq!(who(&engine), (false, true));
    engine.clone().publish_changes(upsert(&[entry("Group", "team", "{}", &[])]).as_bytes()).unwrap();
    assert_eq!((who(&engine), who(&before)), ((false, false), (false, true)));
    engine.close();
    assert_eq!(engine.publish_changes(b"{}"), Err(Error::Closed));
    assert_eq!(engine.with_changes(b"{}").map(drop), Err(Error::Closed));
    assert_eq!(who(&before), (false, true));
}

#[test]
fn what_is_refused_changes_nothing() {
    let engine = engine();
    let changes = [
        (401, upsert(&[ann(), ann()])),
        (401, remove(&[uid("User", "ann"), uid("User", "ann")])),
        (402, upsert(&[entry("Group", "staff", "{}", &["team"])])),
        (501, String::new()),
        (501, "{\"upsert\":[".into()),
        (502, "[]".into()),
        (502, "{\"removed\":[]}".into()),
        (503, upsert(&[entry("Ghost", "g", "{}", &[])])),
        (504, upsert(&[entry("User", "ann", r#"{"age":"30"}"#, &[])])),
        (505, upsert(&[entry("User", "ann", "{}", &[])])),
        (506, upsert(&[entry("Group", "team", r#"{"age":1}"#, &[])])),
        (508, remove(&[uid("Action", "view")])),
        (509, upsert(&[entry("User", "ann", r#"{"age":1.5}"#, &[])])),
    ];
    for (number, text) in changes {
        for refused in [engine.publish_changes(text.as_bytes()), engine.with_changes(text.as_bytes()).map(drop)] {
            let Err(Error::Refused(why)) = refused else { panic!("{text}: {refused:?}") };
            assert_eq!((why.file, why.number, why.offset), (File::Entities, number, None), "{text}");
            assert!(why.words.starts_with(&format!("error[{number}]: ")), "{}", why.words);
            assert_eq!(who(&engine), (false, true));
        }
    }
}

#[test]
fn a_thousand_changes_come_one_after_another() {
    let engine = engine();
    for number in 0..1000 {
        let (next, last) = (format!("u{number}"), format!("u{}", number - 1));
        let (entry, removed) = (entry("User", &next, r#"{"age":1}"#, &["team"]), uid("User", &last));
        engine.publish_changes(format!(r#"{{"upsert":[{entry}],"remove":[{removed}]}}"#).as_bytes()).unwrap();
        assert!(may(&engine, &next) && !may(&engine, &last) && may(&engine, "bob"));
    }
}

/// What is kept of changes, as docs/DATA.md has it.
#[test]
fn kept_changes_are_counted() {
    let engine = engine();
    let uids: Vec<_> = (0..1000).map(|number| uid("User", &format!("u{number}"))).collect();
    let entries: Vec<_> = (0..1000).map(|number| entry("User", &format!("u{number}"), r#"{"age":1}"#, &[])).collect();
    assert_eq!(engine.kept_changes(), Ok(0));
    engine.publish_changes(upsert(&entries).as_bytes()).unwrap();
    assert_eq!(engine.kept_changes(), Ok(1000));
    assert_eq!(engine.with_changes(upsert(&[ann()]).as_bytes()).unwrap().kept_changes(), Ok(1001));
    engine.publish_changes(remove(&uids).as_bytes()).unwrap();
    assert!(engine.kept_changes().unwrap() <= 126);
    engine.publish_changes(remove(&[uid("User", "bob")]).as_bytes()).unwrap();
    assert!(engine.kept_changes().unwrap() >= 1);
    engine.publish_entities(b"[]").unwrap();
    assert_eq!(engine.kept_changes(), Ok(0));
    engine.close();
    assert_eq!(engine.kept_changes(), Err(Error::Closed));
}

#[test]
fn a_request_brings_its_entities() {
    let engine = engine();
    for _ in 0..10 {
        let other = engine.with_changes(upsert(&[ann()]).as_bytes()).unwrap();
        assert_eq!((who(&other), who(&engine)), ((true, true), (false, true)));
    }
}

/// The request line of ann, who wants to view, with more members.
fn line_with(more: &str) -> String {
    format!(r#"{{"principal":"User::\"ann\"","action":"Action::\"view\"","resource":"Group::\"staff\""{more}}}"#)
}

/// The same line, which brings a list of entries.
fn bringing(entries: &[String]) -> String {
    line_with(&format!(r#","entities":[{}]"#, entries.join(",")))
}

const ALLOWED: &str = r#"{"decision":"allow","determining":["staff"],"erring":[]}"#;
const DENIED: &str = r#"{"decision":"deny","determining":[],"erring":[]}"#;

#[test]
fn no_line_sees_the_entities_of_another() {
    let engine = engine();
    let cases = [
        (line_with(""), DENIED),
        (bringing(&[ann()]), ALLOWED),
        (line_with(""), DENIED),
        (bringing(&[]), DENIED),
        (bringing(&[ann(), ann()]), r#"{"refused":401}"#),
        (line_with(r#","entities":{}"#), r#"{"refused":502}"#),
        (bringing(&[ann(), entry("Ghost", "g", "{}", &[])]), r#"{"refused":503}"#),
        (bringing(&[entry("User", "ann", "{}", &["team"])]), r#"{"refused":505}"#),
        (bringing(&[entry("Group", "team", "{}", &[]), ann()]), DENIED),
        (bringing(&[ann()]), ALLOWED),
    ];
    let lines: Vec<_> = cases.iter().map(|it| it.0.as_str()).collect();
    for _ in 0..3 {
        let text = engine.answer_with_entities(lines.join("\n")).unwrap();
        assert_eq!(text.lines().collect::<Vec<_>>(), cases.iter().map(|it| it.1).collect::<Vec<_>>());
        assert_eq!(who(&engine), (false, true));
    }
    assert_eq!(engine.answer_line(bringing(&[ann()])).unwrap(), r#"{"refused":502}"#);
}

#[test]
fn lines_of_the_examples_bring_entities() {
    let (folder, mut count) = (PathBuf::from(env!("CARGO_MANIFEST_DIR")).join("../../examples"), 0);
    for name in fs::read_dir(folder).unwrap().map(|it| it.unwrap().path()) {
        let Ok(lines) = fs::read(name.join("requests_with_entities.jsonl")) else { continue };
        let bytes = |file: &str| fs::read(name.join(file)).unwrap_or_default();
        let (schema, policies, links) = (bytes("schema.json"), bytes("policies.cedar"), bytes("links.json"));
        let files = Files { schema: &schema, policies: &policies, links: &links, entities: b"[]", ..Files::default() };
        let text = Engine::new(&files).unwrap().answer_with_entities(lines).unwrap();
        assert_eq!(text.into_bytes(), bytes("answers_with_entities.jsonl"));
        count += 1;
    }
    assert!(count > 0, "no example has lines that bring entities");
}

#[test]
fn entities_that_are_upserted_answer_as_published_ones() {
    let folder = PathBuf::from(env!("CARGO_MANIFEST_DIR")).join("../../examples");
    for name in fs::read_dir(folder).unwrap().map(|it| it.unwrap().path()).filter(|it| it.join("answers.jsonl").exists()) {
        let bytes = |file: &str| fs::read(name.join(file)).unwrap_or_default();
        let (schema, policies, links) = (bytes("schema.json"), bytes("policies.cedar"), bytes("links.json"));
        // An example with options is in the language of Cedar 4.
        let language = if name.join("options").exists() { Language::Cedar4 } else { Language::default() };
        let files = Files { schema: &schema, policies: &policies, links: &links, entities: b"[]", language, ..Files::default() };
        let engine = Engine::new(&files).unwrap();
        engine.publish_changes(&[b"{\"upsert\":".as_slice(), &bytes("entities.json"), b"}"].concat()).unwrap();
        assert_eq!(engine.answer(bytes("requests.jsonl")).unwrap().into_bytes(), bytes("answers.jsonl"));
    }
}
