//! The library against the reference on generated calls. KD_CASES sets how many, KD_SECONDS how long at most, KD_SEED
//! the seed; each part prints its own. Arguments name the parts to run; `but` before them runs all others, and no argument all.
//!
//! It is a program with one thread, and no test under cargo's harness, which starts threads: with a second thread an
//! emulator of x86-64 was seen to take two to four times as long, we think for the barriers that it then needs.

use host_tests::call::by_library;
use host_tests::compare::{report, Comparison};
use host_tests::random::Random;
use host_tests::{bursts, fillings, headers, lists, places, saves, sessions, shapes, streams, torrents};
use std::env;
use std::process::exit;
use std::time::{Duration, Instant, SystemTime, UNIX_EPOCH};

fn setting(name: &str, otherwise: u64) -> u64 {
    env::var(name).map_or(otherwise, |text| text.parse().expect("a whole number"))
}

/// KD_SEED, or one that differs from run to run.
fn seed() -> u64 {
    setting("KD_SEED", SystemTime::now().duration_since(UNIX_EPOCH).unwrap().as_secs())
}

type Cases = fn(&mut Random, &mut Comparison, &mut dyn FnMut(&Comparison) -> bool);

struct Part {
    /// What its calls are about.
    name: &'static str,
    /// Those that don't ask whether to go on end by themselves.
    cases: Cases,
}

/// A torrent of libtorrent's, with a layer.
const SINGLE: &[u8] = include_bytes!("../../real/single.torrent");

const PARTS: [Part; 22] = [
    Part { name: "strings", cases: |random, compared, _| fillings::run(random, compared) },
    Part { name: "bursts", cases: |random, compared, go_on| bursts::run(random, compared, go_on) },
    Part { name: "every-cut-of-strings", cases: |random, compared, _| bursts::run_through_every_cut(random, compared) },
    Part { name: "logged-files", cases: |random, compared, _| bursts::run_on_files(random, compared) },
    Part { name: "sessions", cases: |random, compared, go_on| sessions::run(random, compared, go_on) },
    Part { name: "every-header-odd", cases: |random, compared, _| headers::run(1, random, compared) },
    Part { name: "every-header-even", cases: |random, compared, _| headers::run(2, random, compared) },
    Part { name: "large-file", cases: |random, compared, _| sessions::run_on_a_large_file(random, compared, 40) },
    Part { name: "saves", cases: |random, compared, go_on| saves::run(random, compared, go_on) },
    Part { name: "each-byte-of-a-save", cases: |random, compared, _| saves::run_through_every_byte(random, compared) },
    Part { name: "torrents", cases: |random, compared, go_on| torrents::run(random, compared, go_on) },
    Part { name: "each-byte-of-single", cases: |_, compared, _| torrents::run_through_every_byte(SINGLE, compared) },
    Part {
        name: "each-byte-of-a-small-one",
        cases: |random, compared, _| torrents::run_through_every_byte(&torrents::small(random), compared),
    },
    Part {
        name: "each-byte-of-a-small-hybrid",
        cases: |random, compared, _| torrents::run_through_every_byte(&torrents::small_hybrid(random), compared),
    },
    Part { name: "each-cut-of-single", cases: |_, compared, _| torrents::run_through_every_cut(SINGLE, compared) },
    Part {
        name: "hostile-shapes",
        cases: |_, compared, _| shapes::ALL.iter().for_each(|shape| torrents::ask_few(&(shape.make)(), compared)),
    },
    Part { name: "lists", cases: |random, compared, go_on| lists::run(random, compared, go_on) },
    Part { name: "places", cases: |random, compared, go_on| places::run(random, compared, go_on) },
    Part { name: "streams", cases: |random, compared, go_on| streams::run(random, compared, go_on) },
    Part {
        name: "every-cut-of-streams",
        cases: |random, compared, _| streams::run_through_every_cut(random, compared),
    },
    Part {
        name: "every-length-of-every-id",
        cases: |random, compared, _| streams::run_through_every_length(random, compared),
    },
    Part { name: "hostile-lists", cases: |_, compared, _| lists::ask_hostile(compared) },
];

/// Runs a part with a bound on calls and time, and says what was compared.
fn compare(Part { name, cases }: &Part) {
    let seed = seed();
    let most = setting("KD_CASES", 800_000);
    let began = Instant::now();
    let end = began + Duration::from_secs(setting("KD_SECONDS", 60));
    let mut compared = Comparison::new(&by_library);
    let mut asked = 0;
    cases(&mut Random::new(seed), &mut compared, &mut |compared| {
        asked += 1;
        compared.difference.is_none() && compared.compared < most && asked < most && Instant::now() < end
    });
    println!("{name}: seed {seed}, {} calls compared in {} s", compared.compared, began.elapsed().as_secs());
    for ((entry, number), times) in &compared.seen {
        println!("  {:<21} {number:>2} {times:>9}", entry.name());
    }
    if let Some(call) = compared.difference {
        println!("{name}: seed {seed}: the library differs from the reference\n{}", report(&by_library, &call));
        exit(1);
    }
}

fn main() {
    let mut named: Vec<String> = env::args().skip(1).collect();
    let is_but = named.is_empty() || named[0] == "but";
    named.retain(|name| name != "but");
    if let Some(unknown) = named.iter().find(|name| PARTS.iter().all(|part| part.name != *name)) {
        eprintln!("generated: no part {unknown}");
        exit(2);
    }
    let is_wanted = |part: &&Part| named.iter().any(|name| name == part.name) != is_but;
    let run = PARTS.iter().filter(is_wanted).map(compare).count();
    println!("{run} passed");
}
