//! The wrapper and README beside `include/rank.h`: version, sizes, limits, each refusal's name, number and sentence, and each call's order.
use lemtskavo_trials::call::Kind;

use lemtskavo::{CHIPS, DATA_BYTES, LINE_BYTES, LINE_LIMIT, PATTERN_BYTES, REPAIR_LIMIT, Refusal, TASK_LIMIT, ffi, memory_bytes};

/// A file of the repository.
fn file(name: &str) -> String {
    let path = format!("{}/../../../{name}", env!("CARGO_MANIFEST_DIR"));
    std::fs::read_to_string(&path).unwrap_or_else(|error| panic!("{path}: {error}"))
}

fn header() -> String {
    file("include/rank.h")
}

/// The number that the header defines as this name.
fn defined(header: &str, name: &str) -> u64 {
    let definition = format!("#define {name} ");
    let text = header.lines().find_map(|line| line.strip_prefix(&definition)).unwrap_or_else(|| panic!("{name} is not defined"));
    let digits = text.trim_start().split(|c: char| !c.is_ascii_digit()).next().unwrap();
    digits.parse().unwrap_or_else(|_| panic!("{name} is no number: {text}"))
}

/// Name, number and sentence of each refusal in the header's list. A sentence may be cut into several strings.
fn listed(header: &str) -> Vec<(String, u32, String)> {
    let (_, list) = header.split_once("#define RANK_REFUSALS(X)").expect("the list of refusals");
    let (list, _) = list.split_once("\n\n").expect("an empty line after the list");
    let entry = |text: &str| {
        let (name, rest) = text.split_once(',').unwrap();
        let (number, strings) = rest.split_once(',').unwrap();
        (name.to_string(), number.trim().parse().unwrap(), strings.split('"').skip(1).step_by(2).collect())
    };
    list.split("X(RANK_REFUSED_").skip(1).map(entry).collect()
}

/// A name as Rust writes it.
fn camel_case(name: &str) -> String {
    name.split('_').map(|word| format!("{}{}", &word[..1], word[1..].to_lowercase())).collect()
}

#[test]
fn the_archive_has_the_version_of_the_header_and_of_the_wrapper() {
    assert_eq!(defined(&header(), "RANK_VERSION"), u64::from(ffi::VERSION));
    assert_eq!(ffi::rank_version(), ffi::VERSION);
}

#[test]
fn sizes_and_limits_are_those_of_the_header() {
    let header = header();
    for (name, number) in [
        ("RANK_CHIPS", CHIPS as u64),
        ("RANK_DATA_BYTES", DATA_BYTES as u64),
        ("RANK_LINE_BYTES", LINE_BYTES as u64),
        ("RANK_PATTERN_BYTES", PATTERN_BYTES as u64),
        ("RANK_LINE_LIMIT", u64::from(LINE_LIMIT)),
        ("RANK_TASK_LIMIT", TASK_LIMIT as u64),
        ("RANK_REPAIR_LIMIT", u64::from(REPAIR_LIMIT)),
    ] {
        assert_eq!(defined(&header, name), number, "{name}");
    }
    assert_eq!([0, 1, 65_536].map(memory_bytes), [0, 81, 81 * 65_536]);
    assert_eq!(memory_bytes(usize::MAX), usize::MAX);
}

#[test]
fn refusals_are_those_of_the_header() {
    let listed = listed(&header());
    for (name, number, sentence) in &listed {
        let refusal = Refusal::try_from(*number).unwrap();
        assert_eq!(format!("{refusal:?}"), camel_case(name));
        assert_eq!(refusal.to_string(), format!("{number}: {sentence}"));
    }
    let numbers: Vec<u32> = listed.iter().map(|(_, number, _)| *number).collect();
    let known: Vec<u32> = (0..=300).filter(|number| Refusal::try_from(*number).is_ok()).collect();
    assert_eq!(numbers, known, "the header's list, upwards, has the wrapper's refusals and no others");
}

/// The fields of the rows of README's tables whose first field begins so.
fn rows(begin: &str) -> Vec<Vec<String>> {
    let fields = |line: &str| line.split('|').skip(1).map(|field| field.trim().to_string()).collect::<Vec<String>>();
    file("README.md").lines().filter(|line| line.starts_with(begin)).map(fields).collect()
}

#[test]
fn refusals_in_readme_are_those_of_the_header() {
    let numbered = rows("| ").into_iter().filter(|row| row[0].parse::<u32>().is_ok());
    let rows: Vec<[String; 3]> = numbered.map(|row| [row[0].clone(), row[1].replace('`', ""), row[2].replace('`', "")]).collect();
    let listed: Vec<[String; 3]> =
        listed(&header()).into_iter().map(|(name, number, _)| [number.to_string(), name.clone(), camel_case(&name)]).collect();
    assert_eq!(rows, listed);
}

/// What the header's comment says of a call's refusals.
fn refusals_of<'a>(header: &'a str, call: &str) -> &'a str {
    let (before, _) = header.split_once(&format!(" {call}(")).unwrap_or_else(|| panic!("{call} is not declared"));
    let (_, comment) = before.rsplit_once("Refusals: ").unwrap();
    comment.split_once('.').unwrap().0
}

#[test]
fn orders_of_refusals_are_the_same_in_readme_and_header() {
    let header = header();
    for kind in Kind::ALL {
        let call = format!("rank_{}", format!("{kind:?}").to_lowercase());
        let order = refusals_of(&header, &call);
        let row = rows(&format!("| `{call}` "));
        assert_eq!(row[0][2], order, "{call}");
        let mut numbers: Vec<u32> = order.split(|c: char| !c.is_ascii_digit()).filter_map(|digits| digits.parse().ok()).collect();
        numbers.push(0);
        numbers.sort_unstable();
        assert_eq!(numbers, kind.possible(), "{call}");
    }
}
