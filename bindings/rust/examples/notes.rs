//! Publishes the files of a folder, and answers requests: `cargo run --example notes FOLDER [LINKS]`, for example examples/notes. LINKS is
//! a file of links.
use std::{env, error::Error, fs};

use bobbinjade::{Decision, Engine, Files, Request, Uid};

fn main() -> Result<(), Box<dyn Error>> {
    let folder = env::args().nth(1).unwrap_or("examples/notes".into());
    let content = |name: &str| fs::read(format!("{folder}/{name}"));
    let (schema, policies, entities) = (content("schema.json")?, content("policies.cedar")?, content("entities.json")?);
    // A file that is missing by mistake never means that there are no links, and the library takes one of no bytes for no file.
    let links = env::args().nth(2).map(fs::read).transpose()?;
    if links.as_ref().is_some_and(Vec::is_empty) {
        return Err("a file of links has a list".into());
    }
    let links = links.unwrap_or_default();
    let files = Files { schema: &schema, policies: &policies, links: &links, entities: &entities, ..Files::default() };
    let engine = Engine::new(&files)?;

    // Any number of threads may ask, also while another publishes.
    let request = Request::new(Uid::new("User", "ann"), Uid::new("Action", "write"), Uid::new("Notebook", "plans"));
    println!("{}", if engine.decide(&request)? == Decision::Allow { "allow" } else { "deny" });
    println!("determined by {:?}", engine.authorize(&request)?.determining);

    // All request lines of the folder, as `cedar authorize` answers them.
    print!("{}", engine.answer(content("requests.jsonl")?)?);

    // Entities that changed are read alone, and the policies are not read again. Threads may ask meanwhile.
    engine.publish_entities(&content("entities.json")?)?;

    // One user is stored, and another is gone. What the changes do not name stays as it is.
    engine.publish_changes(br#"{"upsert":[{"uid":{"type":"User","id":"dora"}}],"remove":[{"type":"User","id":"bob"}]}"#)?;

    // A request that brings its entities. No other request sees them.
    let once = engine.with_changes(br#"{"upsert":[{"uid":{"type":"User","id":"ann"}}]}"#)?;
    println!("{}", if once.decide(&request)? == Decision::Allow { "allow" } else { "deny" });

    // A request line that brings its entities. No other line sees them.
    let line = concat!(
        r#"{"principal":"User::\"ann\"","action":"Action::\"write\"","resource":"Notebook::\"plans\"","#,
        r#""entities":[{"uid":{"type":"User","id":"ann"}}]}"#
    );
    print!("{}", engine.answer_with_entities(line)?);

    // Policies of others: their report comes in parts, and may be left at any of them. After 100 lines only the counts go on.
    for part in bobbinjade::validate_parts(&files, Some(100)) {
        print!("{}", part?);
    }

    // Policies that are refused change nothing.
    if let Err(error) = engine.publish(&Files { policies: b"permit(", ..files }) {
        println!("{error}");
    }
    Ok(())
}
