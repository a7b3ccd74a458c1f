//! The config file, in TOML, and what can be wrong with it. `kdgate --check` says all of it at once.

use kombudeva::limits::{LARGEST_PIECE_LENGTH, SMALLEST_PIECE_LENGTH};
use serde::Deserialize;
use std::net::SocketAddr;
use std::path::{Path, PathBuf};

#[derive(Clone, Debug, Deserialize)]
#[serde(deny_unknown_fields)]
pub struct Config {
    /// What the page calls this gateway.
    #[serde(default = "unnamed")]
    pub name: String,
    /// Where neighbours connect; connections to neighbours come from this address too.
    pub listen: SocketAddr,
    /// Where the status page is.
    pub status: SocketAddr,
    /// Where all that is kept is kept.
    pub folder: PathBuf,
    #[serde(default)]
    pub neighbours: Vec<SocketAddr>,
    #[serde(default)]
    pub history: Vec<History>,
    #[serde(default)]
    pub follow: Vec<Follow>,
    #[serde(default)]
    pub limits: Limits,
}

/// What the logger of this gateway writes: a file, or a folder of files.
#[derive(Clone, Debug, Deserialize)]
#[serde(deny_unknown_fields)]
pub struct History {
    pub name: String,
    pub path: PathBuf,
    /// Seconds between two versions.
    #[serde(default = "sixty")]
    pub every: u64,
    #[serde(default = "piece_length")]
    pub piece_length: u64,
}

/// A history of another gateway, asked for at its status address.
#[derive(Clone, Debug, Deserialize)]
#[serde(deny_unknown_fields)]
pub struct Follow {
    pub name: String,
    pub from: SocketAddr,
    #[serde(default = "sixty")]
    pub every: u64,
}

/// Bounds and times; each has a default.
#[derive(Clone, Debug, Deserialize)]
#[serde(deny_unknown_fields, default)]
pub struct Limits {
    /// Connections in all, and of one address.
    pub connections: usize,
    pub per_address: usize,
    /// Seconds till saved, judged again, silent for too long, a request given up, the first ban over.
    pub checkpoint: u64,
    pub scrub: u64,
    pub silence: u64,
    pub patience: u64,
    pub ban: u64,
    /// Bytes of hashes served to one connection in a second.
    pub hashes: u64,
    /// Bytes of pieces that are put together in memory, where neighbours have no leaves.
    pub assembling: usize,
    /// Bytes of stores in memory.
    pub stores: usize,
    /// Versions of a history that are served at a time.
    pub versions: usize,
}

impl Default for Limits {
    fn default() -> Limits {
        Limits {
            connections: 32,
            per_address: 8,
            checkpoint: 30,
            scrub: 7 * 86400,
            silence: 120,
            patience: 20,
            ban: 600,
            hashes: 1 << 20,
            assembling: 32 << 20,
            stores: 1 << 30,
            versions: 3,
        }
    }
}

fn unnamed() -> String {
    "gateway".into()
}

fn sixty() -> u64 {
    60
}

fn piece_length() -> u64 {
    65536
}

impl Config {
    /// The config of a file, or all that is wrong with it.
    pub fn read(path: &Path) -> Result<Config, Vec<String>> {
        let text = std::fs::read_to_string(path).map_err(|error| vec![format!("{}: {error}", path.display())])?;
        Config::of(&text)
    }

    pub fn of(text: &str) -> Result<Config, Vec<String>> {
        let config: Config = toml::from_str(text).map_err(|error| vec![error.to_string()])?;
        let wrong = config.wrong();
        if wrong.is_empty() {
            Ok(config)
        } else {
            Err(wrong)
        }
    }

    fn wrong(&self) -> Vec<String> {
        let mut wrong = Vec::new();
        let mut unless = |right: bool, said: String| {
            if !right {
                wrong.push(said);
            }
        };
        let Limits { connections, per_address, checkpoint, scrub, silence, patience, ban, hashes, .. } = self.limits;
        unless(self.folder.is_absolute(), format!("folder: {} is not absolute", self.folder.display()));
        unless(self.listen != self.status, "listen and status are the same address".into());
        for (number, neighbour) in self.neighbours.iter().enumerate() {
            let known = self.neighbours[..number].contains(neighbour);
            unless(!known, format!("neighbours: {neighbour} stands there twice"));
            unless(*neighbour != self.listen, format!("neighbours: {neighbour} is this gateway itself"));
            unless(neighbour.port() != 0, format!("neighbours: {neighbour} has no port"));
        }
        let names = self.history.iter().map(|one| &one.name).chain(self.follow.iter().map(|one| &one.name));
        let names: Vec<&String> = names.collect();
        for (number, name) in names.iter().enumerate() {
            unless(is_name(name), format!("name {name:?}: letters, digits, '-', '_' and '.', no '.' first, up to 64"));
            unless(!names[..number].contains(name), format!("name {name:?} stands there twice"));
        }
        for one in &self.history {
            unless(one.path.is_absolute(), format!("history {:?}: {} is not absolute", one.name, one.path.display()));
            let fits = (SMALLEST_PIECE_LENGTH..=LARGEST_PIECE_LENGTH).contains(&one.piece_length);
            let fits = fits && one.piece_length.is_power_of_two();
            unless(fits, format!("history {:?}: a piece length is a power of two, 16384 to 16777216", one.name));
        }
        let every = self.history.iter().map(|one| one.every).chain(self.follow.iter().map(|one| one.every));
        unless(every.into_iter().all(|every| every > 0), "every: at least a second".into());
        let times = [checkpoint, scrub, silence, patience, ban, hashes, connections as u64, per_address as u64];
        unless(times.iter().all(|one| *one > 0), "limits: none of them may be 0".into());
        unless(self.limits.versions > 0, "limits: at least one version is served".into());
        wrong
    }
}

/// A name that is also a file's name and a part of an address.
pub fn is_name(name: &str) -> bool {
    let letters = name.bytes().all(|byte| byte.is_ascii_alphanumeric() || b"-_.".contains(&byte));
    letters && !name.is_empty() && name.len() <= 64 && !name.starts_with('.')
}

#[cfg(test)]
mod tests {
    use super::*;

    const GOOD: &str = r#"
        listen = "127.0.0.2:7000"
        status = "127.0.0.2:7080"
        folder = "/var/lib/kdgate"
        neighbours = ["127.0.0.3:7000"]
        [[history]]
        name = "rack-7"
        path = "/var/log/cells"
        [[follow]]
        name = "rack-8"
        from = "127.0.0.3:7080"
        [limits]
        scrub = 60
    "#;

    #[test]
    fn a_good_one_is_read() {
        let config = Config::of(GOOD).unwrap();
        assert_eq!((config.history[0].every, config.limits.scrub, config.limits.connections), (60, 60, 32));
    }

    #[test]
    fn all_that_is_wrong_is_said() {
        for (from, to, said) in [
            ("\"/var/lib/kdgate\"", "\"kdgate\"", "not absolute"),
            ("127.0.0.2:7080", "127.0.0.2:7000", "the same address"),
            ("[\"127.0.0.3:7000\"]", "[\"127.0.0.2:7000\"]", "itself"),
            ("[\"127.0.0.3:7000\"]", "[\"127.0.0.3:7000\", \"127.0.0.3:7000\"]", "twice"),
            ("rack-8", "rack-7", "twice"),
            ("rack-8", "../etc", "letters"),
            ("scrub = 60", "scrub = 0", "0"),
            ("scrub = 60", "scrubs = 60", "scrubs"),
            ("listen", "lisen", "lisen"),
            ("path = \"/var/log/cells\"", "path = \"/var/log/cells\"\npiece_length = 65537", "power of two"),
        ] {
            let wrong = Config::of(&GOOD.replacen(from, to, 1)).unwrap_err();
            assert!(wrong.iter().any(|line| line.contains(said)), "{to}: {wrong:?}");
        }
    }
}
