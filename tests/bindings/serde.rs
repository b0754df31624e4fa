//! A context that is a value of serde_json: the request of a manager of examples/tenants.
use std::fs;

use bobbinjade::{Engine, Files, Request, Uid};

fn main() {
    let folder = std::env::args().nth(1).unwrap();
    let content = |name: &str| fs::read(format!("{folder}/{name}")).unwrap();
    let (schema, policies, entities) = (content("schema.json"), content("policies.cedar"), content("entities.json"));
    let engine = Engine::new(&Files { schema: &schema, policies: &policies, entities: &entities, ..Files::default() }).unwrap();
    let context = serde_json::json!({ "device": { "trusted": true } });
    let (who, what) = (Uid::new("Tenants::User", "ada"), Uid::new("Billing::Action", "approve"));
    let request = Request::new(who, what, Uid::new("Billing::Invoice", "small")).with_context(context.to_string());
    println!("{:?}", engine.decide(&request).unwrap());
}
