//! Reports in parts. The schema has two environments, and a wrong policy has a fault in each.
use bobbinjade::{validate, validate_parts, Error, File, Files, ReportParts};

const SCHEMA: &str = r#"{"":{"entityTypes":{"User":{},"Admin":{},"Doc":{}},"actions":{"view":{"appliesTo":{
    "principalTypes":["User","Admin"],"resourceTypes":["Doc"]}},"read":{}}}}"#;
const RIGHT: &str = "permit(principal, action, resource);\n";
const WRONG: &str = "permit(principal, action, resource) when { resource.size > 0 };\n";
const VAIN: &str = "forbid(principal, action == Action::\"read\", resource);\n";
const MANY: u64 = 3000;

fn files(policies: &str) -> Files<'_> {
    Files { schema: SCHEMA.as_bytes(), policies: policies.as_bytes(), ..Files::default() }
}

fn many(policy: &str) -> String {
    policy.repeat(MANY as usize)
}

fn fault(policy: &str, principal: &str) -> String {
    let action = r#"{"action":{"id":"view","type":"Action"},"fault":603,"policy":""#;
    format!("{action}{policy}\",\"principal\":\"{principal}\",\"resource\":\"Doc\"}}\n")
}

fn totals(faults: u64, warnings: u64) -> String {
    format!("{{\"faults\":{faults},\"warnings\":{warnings}}}\n")
}

/// The parts that are left, one after another.
fn joined(parts: ReportParts) -> String {
    parts.map(Result::unwrap).collect()
}

/// The first lines of a text.
fn first_lines(text: &str, count: usize) -> String {
    text.split_inclusive('\n').take(count).collect()
}

#[test]
fn a_short_report_is_one_part() {
    let text = [RIGHT, WRONG, VAIN].concat();
    let mut parts = validate_parts(&files(&text), None);
    assert_eq!((parts.policies(), parts.faults(), parts.warnings(), parts.is_accepted()), (0, 0, 0, false));
    let wanted = [fault("policy1", "Admin"), fault("policy1", "User"), r#"{"policy":"policy2","warning":650}"#.into(), "\n".into()];
    assert_eq!(parts.next(), Some(Ok(wanted.concat() + &totals(2, 1))));
    assert_eq!((parts.policies(), parts.faults(), parts.warnings(), parts.is_accepted()), (3, 2, 1, false));
    assert_eq!((parts.next(), parts.next()), (None, None));
    assert_eq!(joined(validate_parts(&files(""), None)), totals(0, 0));
}

#[test]
fn parts_are_the_whole_report() {
    for (policy, faults, warnings, least) in [(RIGHT, 0, 0, 3), (WRONG, 2 * MANY, 0, 9), (VAIN, 0, MANY, 3)] {
        let text = many(policy);
        let report = validate(&files(&text)).unwrap();
        assert!(report.text.ends_with(&totals(faults, warnings)));
        let (mut parts, mut made) = (validate_parts(&files(&text), None), vec![]);
        while let Some(part) = parts.next() {
            made.push(part.unwrap());
            assert!(made[made.len() - 1].len() < 65536 + 256 && parts.policies() <= 1000 * made.len() as u64);
        }
        assert!(made.len() >= least, "{}", made.len());
        assert_eq!(made.concat(), report.text);
        assert_eq!((parts.policies(), parts.faults(), parts.warnings()), (MANY, faults, warnings));
        assert_eq!((parts.is_accepted(), report.is_accepted), (faults == 0, faults == 0));
    }
}

#[test]
fn after_a_limit_only_the_counts_go_on() {
    let text = many(WRONG);
    let report = validate(&files(&text)).unwrap().text;
    for lines in 0..=5 {
        let wanted = first_lines(&report, lines) + &totals(6000, 0);
        assert_eq!(joined(validate_parts(&files(&text), Some(lines as u64))), wanted);
    }
    assert_eq!(joined(validate_parts(&files(&text), Some(10000))), report);
}

#[test]
fn a_caller_may_leave_and_a_clone_goes_on() {
    let text = many(WRONG);
    let report = validate(&files(&text)).unwrap().text;
    let mut parts = validate_parts(&files(&text), None);
    let first = parts.next().unwrap().unwrap();
    assert!(first.ends_with('\n') && first.len() < report.len() && report.starts_with(&first));
    assert_eq!((parts.faults(), parts.is_accepted()), (2 * parts.policies(), false));
    assert_eq!(first.clone() + &joined(parts.clone()), report);
    assert_eq!(first + &joined(parts), report);
}

#[test]
fn a_refused_file_is_an_error_and_ends_the_parts() {
    let wanted = [
        (Files { policies: b"permit(", ..files("") }, File::Policies, 201),
        (Files { schema: b"{", ..files(RIGHT) }, File::Schema, 301),
        (Files { links: b"{}", ..files(RIGHT) }, File::Links, 502),
    ];
    for (broken, file, number) in wanted {
        let mut parts = validate_parts(&broken, Some(5));
        let Some(Err(Error::Refused(why))) = parts.next() else { panic!("{number} is not refused") };
        assert_eq!((why.file, why.number, parts.policies(), parts.is_accepted()), (file, number, 0, false));
        assert!(why.words.starts_with(&format!("error[{number}]: ")) && parts.next().is_none());
    }
    assert_eq!(joined(validate_parts(&Files { entities: b"no entities", ..files(RIGHT) }, None)), totals(0, 0));
}

#[test]
fn a_part_is_made_on_a_small_stack() {
    let text = format!("permit(principal, action, resource) when {{ 1{} > 0 }};", " + 1".repeat(1990));
    let made = std::thread::Builder::new().stack_size(128 << 10).spawn(move || joined(validate_parts(&files(&text), None))).unwrap();
    assert_eq!(made.join().unwrap(), totals(0, 0));
}
