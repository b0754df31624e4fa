//! How fast calls are: `speed FOLDER CALL THREADS COUNT`, with the calls `decide`, `authorize` and `answer-line` over examples/notes.
//! Prints the nanoseconds that a call takes in a thread, and the calls of all threads in a second.
use std::{env, fs, thread, time::Instant};

use bobbinjade::{Engine, Files, Request, Uid};

const LINE: &str = r#"{"principal":"User::\"ann\"","action":"Action::\"write\"","resource":"Notebook::\"plans\""}"#;

fn main() {
    let words: Vec<String> = env::args().collect();
    let content = |name: &str| fs::read(format!("{}/{name}", words[1])).unwrap();
    let (schema, policies, entities) = (content("schema.json"), content("policies.cedar"), content("entities.json"));
    let engine = Engine::new(&Files { schema: &schema, policies: &policies, entities: &entities, ..Files::default() }).unwrap();
    let (threads, calls): (u64, u64) = (words[3].parse().unwrap(), words[4].parse().unwrap());
    let request = Request::new(Uid::new("User", "ann"), Uid::new("Action", "write"), Uid::new("Notebook", "plans"));
    let call = |kind: &str| match kind {
        "decide" => drop(engine.decide(&request).unwrap()),
        "authorize" => drop(engine.authorize(&request).unwrap()),
        _ => drop(engine.answer_line(LINE).unwrap()),
    };
    let began = Instant::now();
    thread::scope(|scope| {
        for _ in 0..threads {
            scope.spawn(|| (0..calls).for_each(|_| call(&words[2])));
        }
    });
    let seconds = began.elapsed().as_secs_f64();
    println!("{:.0} {:.0}", seconds / calls as f64 * 1e9, (threads * calls) as f64 / seconds);
}
