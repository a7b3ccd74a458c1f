//! One vocabulary: the header has the names and values of `crates/numbers` and `crates/limits`, and so have the reference and
//! the binding. All of it is read from the sources.

use std::collections::{BTreeMap, BTreeSet};
use std::fs;
use std::path::Path;

type Names = BTreeMap<String, u64>;

fn source(path: &str) -> String {
    let repository = Path::new(env!("CARGO_MANIFEST_DIR")).join("../..");
    fs::read_to_string(repository.join(path)).unwrap_or_else(|error| panic!("{path}: {error}"))
}

/// A value as these sources write them: a decimal, `0x` with digits in groups, or `2 ^ n`.
fn value(text: &str) -> u64 {
    let digits = text.trim().replace('_', "");
    let read =
        |text: &str, base| u64::from_str_radix(text.trim(), base).unwrap_or_else(|_| panic!("{text} is no number"));
    match (digits.strip_prefix("0x"), digits.split_once('^')) {
        (Some(digits), _) => read(digits, 16),
        (_, Some((base, power))) => read(base, 10).pow(read(power, 10) as u32),
        _ => read(&digits, 10),
    }
}

/// `#define KD_NAME text`, without what is behind it.
fn macros() -> BTreeMap<String, String> {
    let text = source("include/kombudeva.h");
    let defined = text.lines().filter_map(|line| line.strip_prefix("#define KD_")?.split_once(' '));
    defined.map(|(name, rest)| (name.to_string(), rest.split("/*").next().unwrap().trim().to_string())).collect()
}

/// Names and values of the header, without its version, the attribute and old names.
fn header() -> Names {
    let others = ["VERSION", "VERSION_NUMBER", "MUST_USE", "NUMBERS(X)"];
    let values =
        macros().into_iter().filter(|(name, text)| !others.contains(&name.as_str()) && !text.starts_with("KD_"));
    values.map(|(name, text)| (name, value(&text))).collect()
}

/// `pub const NAME: type = value;`, in Rattle and in Rust.
fn constants(path: &str) -> Names {
    let text = source(path);
    let parts = text.lines().filter_map(|line| line.strip_prefix("pub const ")?.strip_suffix(';')?.split_once(" = "));
    parts.map(|(name, text)| (name.split(':').next().unwrap().to_string(), value(text))).collect()
}

/// `Name = value,` of an enum, as a constant's name.
fn variants(path: &str, name: &str) -> Names {
    let text = source(path);
    let (_, cases) = text.split_once(&format!("\npub enum {name} {{\n")).unwrap();
    let (cases, _) = cases.split_once("\n}").unwrap();
    let parts = cases.lines().filter_map(|line| line.trim().strip_suffix(',')?.split_once(" = "));
    parts.map(|(name, text)| (from_camel(name), value(text))).collect()
}

/// `name = value` of a spec, as a constant's name; a list of numbers is none.
fn defined(path: &str) -> Names {
    let is_value = |text: &str| text.starts_with(|first: char| first.is_ascii_digit()) && !text.contains('∷');
    let parts = source(path);
    let parts = parts.lines().filter_map(|line| line.split_once(" = ")).filter(|(_, text)| is_value(text));
    parts.filter(|(name, _)| !name.contains(' ')).map(|(name, text)| (from_camel(name), value(text))).collect()
}

/// The binding's table: number, name, words.
fn refusals() -> Names {
    let text = source("host/kombudeva/src/answer.rs");
    let (_, table) = text.split_once("\nrefusals! {\n").unwrap();
    let (table, _) = table.split_once("\n}").unwrap();
    let row = |line: &str| {
        let mut words = line.split_whitespace();
        let number = value(words.next().unwrap());
        (from_camel(words.next().unwrap()), number)
    };
    table.lines().map(row).collect()
}

/// `noMessage` or `NoMessage` as `NO_MESSAGE`.
fn from_camel(name: &str) -> String {
    let spaced = name.char_indices().flat_map(|(at, letter)| {
        let gap = if at > 0 && letter.is_uppercase() { "_" } else { "" };
        gap.chars().chain(letter.to_uppercase())
    });
    spaced.collect()
}

fn numbers() -> Names {
    constants("crates/numbers/src/lib.rt")
}

/// The numbers but 0: a spec's and the binding's 0 carry what was asked for.
fn refused() -> Names {
    numbers().into_iter().filter(|(name, _)| name != "DONE").collect()
}

fn the_numbers_of_the_table() {
    let numbers = numbers();
    let values: BTreeSet<u64> = numbers.values().copied().collect();
    assert_eq!(values, (0..=12).chain(19..=32).collect());
    assert_eq!(values.len(), numbers.len());
}

/// What is heard of a stream, by the header's names: all but nothing.
fn events() -> Names {
    let named = constants("crates/stream/src/lib.rt").into_iter();
    named.filter(|(name, _)| ["MESSAGE", "KEEP_ALIVE"].contains(&name.as_str())).collect()
}

fn the_header_has_the_numbers_and_the_limits() {
    let mut expected = numbers();
    expected.extend(constants("host/reference/src/limits.rs"));
    expected.extend(constants("host/reference/src/ids.rs"));
    expected.extend(events());
    expected.insert("NODES".to_string(), expected["TALLEST_TREE"] + 1);
    assert_eq!(header(), expected);
}

/// `X(number, KD_NAME, "words")` of the header's table has every number once.
fn the_headers_table_has_all_numbers() {
    let text = source("include/kombudeva.h");
    let (_, table) = text.split_once("#define KD_NUMBERS(X)").unwrap();
    let rows = table.split("    X(").skip(1).take(numbers().len());
    let named = rows.map(|row| {
        let (number, rest) = row.split_once(", KD_").unwrap();
        (rest.split(',').next().unwrap().to_string(), value(number))
    });
    assert_eq!(named.collect::<Names>(), numbers());
}

fn the_numbers_have_one_name_each() {
    assert_eq!(constants("host/reference/src/number.rs"), numbers());
    assert_eq!(defined("crates/numbers/specs/Numbers.antt"), refused());
    assert_eq!(refusals(), refused());
}

fn the_limits_have_one_name_each() {
    let limits = constants("host/reference/src/limits.rs");
    assert_eq!(constants("host/kombudeva/src/limits.rs"), limits);
    let proved = constants("crates/limits/src/lib.rt");
    assert!(proved.len() >= 5);
    for (name, value) in proved {
        assert_eq!(limits.get(&name), Some(&value), "{name}");
    }
    assert_eq!(constants("crates/writer_lists/src/form.rt")["RECORD"], limits["WRITE_RECORD"]);
}

fn the_ids_have_one_name_each() {
    let ids = constants("host/reference/src/ids.rs");
    assert_eq!(ids.len(), 13);
    assert_eq!(variants("crates/frames/src/lib.rt", "Id"), ids);
    assert_eq!(constants("host/kombudeva/src/ids.rs"), ids);
    let of_spec = defined("crates/frames/specs/Frames.antt").into_iter();
    assert_eq!(of_spec.map(|(name, id)| (name.trim_end_matches("_ID").to_string(), id)).collect::<Names>(), ids);
}

fn the_modes_and_events_have_one_name_each() {
    let mut code = constants("crates/stream/src/lib.rt");
    code.remove("NO_EVENT");
    let of_spec = defined("crates/stream/specs/Reading.antt").into_iter().filter(|(name, _)| name != "NO_EVENT");
    assert_eq!(
        of_spec.map(|(name, value)| (name.trim_end_matches("_EVENT").to_string(), value)).collect::<Names>(),
        code
    );
    assert_eq!(events().len(), 2);
}

fn another_name_says_the_same() {
    let others: Vec<(String, String)> = macros().into_iter().filter(|(_, text)| text.starts_with("KD_")).collect();
    let same =
        [("LARGEST_HASHES", "KD_LARGEST_REPLY"), ("NO_SUCH_FILE", "KD_NO_SUCH_PART"), ("SAME_ROOT", "KD_TWO_LENGTHS")];
    assert_eq!(others, same.map(|(name, text)| (name.to_string(), text.to_string())));
}

/// As text and as a number in the header, in code and specs of the boundary, and in both crates of the binding.
fn the_version_is_one() {
    let (version, number) = (&macros()["VERSION"], value(&macros()["VERSION_NUMBER"]));
    let figures: Vec<u64> = version.trim_matches('"').split('.').map(value).collect();
    assert_eq!(figures.iter().fold(0, |number, figure| number * 1000 + figure), number);
    assert_eq!(figures.len(), 3);
    assert_eq!(constants("crates/kombudeva/src/lib.rt")["VERSION"], number);
    assert_eq!(defined("crates/kombudeva/specs/Version.antt")["VERSION"], number);
    for manifest in ["host/kombudeva/Cargo.toml", "host/kombudeva-sys/Cargo.toml"] {
        assert!(source(manifest).contains(&format!("\nversion = {version}\n")), "{manifest}");
    }
}

host_tests::tests! {
    the_numbers_of_the_table,
    the_header_has_the_numbers_and_the_limits,
    the_headers_table_has_all_numbers,
    the_numbers_have_one_name_each,
    the_limits_have_one_name_each,
    the_ids_have_one_name_each,
    the_modes_and_events_have_one_name_each,
    another_name_says_the_same,
    the_version_is_one,
}
