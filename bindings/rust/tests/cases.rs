//! The binding over the cases of answers, in the folder that `BOBBINJADE_CASES` names, which `tools/running/binding_cases.py` has written:
//! `cargo test --test cases -- --ignored --nocapture`.
use std::path::Path;
use std::{env, fs};

use bobbinjade::{Engine, Error, Files, Language, Refusal};

/// The line that the program prints of a refused file.
fn refusal_line(why: &Refusal) -> String {
    let file = format!("{:?}", why.file).to_lowercase();
    let offset = why.offset.map(|it| format!("\"offset\":{it},")).unwrap_or_default();
    format!("{{\"file\":\"{file}\",{offset}\"refused\":{}}}\n", why.number)
}

/// The status and the text of a case with the settings of `cedar.h`: its answers, or what the program prints of files that are refused.
fn answered(folder: &Path, settings: u32, brings_entities: bool) -> (u32, String) {
    let bytes = |file: &str| fs::read(folder.join(file)).unwrap_or_default();
    let [schema, policies, links, entities] = ["schema.json", "policies.cedar", "links.json", "entities.json"].map(bytes);
    let (any_decimal, language) = (settings & 1 != 0, if settings & 2 != 0 { Language::Cedar4 } else { Language::Profile });
    let files = Files { schema: &schema, policies: &policies, links: &links, entities: &entities, any_decimal, language };
    let lines = bytes("requests.jsonl");
    let answer = |engine: Engine| if brings_entities { engine.answer_with_entities(&lines) } else { engine.answer(&lines) };
    match Engine::new(&files).and_then(answer) {
        Ok(text) => (0, text),
        Err(Error::Refused(why)) => (2, refusal_line(&why)),
        Err(Error::Faults(faults)) => (3, faults.report),
        Err(other) => panic!("{folder:?}: {other}"),
    }
}

#[test]
#[ignore = "skipped, since it reads the folder that BOBBINJADE_CASES names"]
fn cases_are_answered() {
    let root = env::var_os("BOBBINJADE_CASES").expect("BOBBINJADE_CASES names no folder");
    let (root, mut passed, mut failed) = (Path::new(&root), 0, Vec::new());
    for line in fs::read_to_string(root.join("list")).unwrap().lines() {
        let [name, status, settings, brings_entities] = line.split(' ').collect::<Vec<_>>()[..] else { panic!("{line}") };
        let folder = root.join(name);
        let (found, text) = answered(&folder, settings.parse().unwrap(), brings_entities == "1");
        if found.to_string() == status && text.as_bytes() == fs::read(folder.join("wanted.jsonl")).unwrap() {
            passed += 1;
        } else {
            failed.push(name.to_string());
            println!("{name}: status {found} with the text\n{text}");
        }
    }
    println!("\n{passed} passed, {} failed", failed.len());
    assert!(failed.is_empty(), "other answers are wanted of {failed:?}");
}
