//! What people and machines see: one look at the gateway, as a page without script, as JSON, as metrics.

use crate::gate::Gate;
use crate::torrent::{Source, Torrent};
use readable::{count, hex, in_html, in_status, size, time};
use serde::Serialize;
use std::collections::BTreeMap;
use std::fmt::Write;
use std::net::IpAddr;
use std::sync::atomic::Ordering::Relaxed;
use std::time::{Duration, Instant};

#[derive(Serialize)]
pub struct Status {
    pub name: String,
    pub version: &'static str,
    pub time: String,
    pub uptime: u64,
    pub connections: usize,
    pub histories: Vec<History>,
    pub refused: Vec<Refused>,
    pub own_and_followed: Vec<Note>,
    pub neighbours: Vec<Neighbour>,
}

/// A file, and how far it may be believed.
#[derive(Serialize)]
pub struct History {
    pub torrent: String,
    pub info_hash: String,
    pub source: String,
    pub file: String,
    pub length: u64,
    pub blocks: u64,
    /// Blocks that were judged right in this run.
    pub believed: u64,
    pub state: &'static str,
    /// Pieces that are missing here, and how many of them no connected neighbour has.
    pub missing_pieces: u64,
    pub nowhere: u64,
    /// Blocks that were found damaged on disk in this run.
    pub damaged: u64,
    #[serde(skip_serializing_if = "Option::is_none")]
    pub trouble: Option<String>,
}

#[derive(Serialize)]
pub struct Refused {
    pub torrent: String,
    pub why: String,
}

#[derive(Serialize)]
pub struct Note {
    pub name: String,
    pub said: String,
}

#[derive(Serialize)]
pub struct Neighbour {
    pub address: String,
    pub configured: bool,
    pub connections: u64,
    pub taken: u64,
    pub served: u64,
    pub hashes_served: u64,
    /// How often each number was our answer to it; 0 stands for hashes that were not asked for.
    pub refusals: BTreeMap<u32, u64>,
    #[serde(skip_serializing_if = "Option::is_none")]
    pub banned_seconds: Option<u64>,
    pub last_end: String,
}

pub fn look(gate: &Gate) -> Status {
    let mut histories: Vec<History> = gate.torrents().iter().flat_map(|torrent| of_torrent(torrent)).collect();
    histories.sort_by(|one, other| (&one.torrent, &one.file).cmp(&(&other.torrent, &other.file)));
    let refused = gate.refused.lock().unwrap().clone().into_iter();
    let notes = gate.notes.lock().unwrap().clone().into_iter();
    Status {
        name: gate.config.name.clone(),
        version: env!("CARGO_PKG_VERSION"),
        time: time(crate::log::seconds()),
        uptime: gate.started.elapsed().as_secs(),
        connections: gate.connections(),
        histories,
        refused: refused.map(|(torrent, why)| Refused { torrent, why }).collect(),
        own_and_followed: notes.map(|(name, said)| Note { name, said }).collect(),
        neighbours: neighbours(gate),
    }
}

fn of_torrent(torrent: &Torrent) -> Vec<History> {
    let source = match &torrent.source {
        Source::Folder(name) => format!("torrents/{name}"),
        Source::Own(name, _) => format!("our own: {name}"),
        Source::Followed(name) => format!("followed: {name}"),
    };
    let file = |file: &crate::torrent::File| {
        let mut history = History {
            torrent: torrent.name.clone(),
            info_hash: hex(&torrent.info_hash),
            source: source.clone(),
            file: in_status(&file.path.join(&b"/"[..])),
            length: file.length,
            blocks: 0,
            believed: 0,
            state: "whole",
            missing_pieces: 0,
            nowhere: 0,
            damaged: 0,
            trouble: None,
        };
        if let Some(held) = &file.held {
            let mut held = held.lock().unwrap();
            (history.blocks, history.believed, history.damaged) = (held.blocks(), held.marked(), held.damaged);
            let bits = held.bitfield();
            for (piece, count) in held.counts.iter().enumerate() {
                if bits.get(piece / 8).is_none_or(|byte| byte & (0x80 >> (piece % 8)) == 0) {
                    history.missing_pieces += 1;
                    history.nowhere += u64::from(*count == 0);
                }
            }
            history.trouble = held.trouble.clone();
            history.state = match () {
                () if held.is_judging() => "judging",
                () if history.believed == history.blocks => "whole",
                () => "partly",
            };
        }
        history
    };
    torrent.files.iter().map(file).collect()
}

fn neighbours(gate: &Gate) -> Vec<Neighbour> {
    let tallies = gate.tallies();
    let banned: BTreeMap<IpAddr, Duration> = gate.bans.lock().unwrap().all(Instant::now()).into_iter().collect();
    let mut addresses: Vec<IpAddr> = gate.config.neighbours.iter().map(|one| one.ip()).collect();
    addresses.extend(tallies.keys().chain(banned.keys().take(100)));
    addresses.sort();
    addresses.dedup();
    let one = |address: IpAddr| {
        let tally = tallies.get(&address).cloned().unwrap_or_default();
        let configured = gate.config.neighbours.iter().find(|one| one.ip() == address);
        let (last_end, refusals) = (tally.last.lock().unwrap().clone(), tally.refusals.lock().unwrap().clone());
        Neighbour {
            address: configured.map_or_else(|| address.to_string(), |one| one.to_string()),
            configured: configured.is_some(),
            connections: tally.connections.load(Relaxed),
            taken: tally.taken.load(Relaxed),
            served: tally.served.load(Relaxed),
            hashes_served: tally.hashes_served.load(Relaxed),
            refusals,
            banned_seconds: banned.get(&address).map(Duration::as_secs),
            last_end,
        }
    };
    addresses.into_iter().map(one).collect()
}

pub fn json(status: &Status) -> Vec<u8> {
    serde_json::to_vec_pretty(status).unwrap_or_default()
}

/// As Prometheus reads them.
pub fn metrics(status: &Status) -> String {
    let mut text = String::new();
    let mut metric = |name: &str, kind: &str, help: &str, values: Vec<(String, u64)>| {
        let _ = writeln!(text, "# HELP kdgate_{name} {help}\n# TYPE kdgate_{name} {kind}");
        for (labels, value) in values {
            let _ = writeln!(text, "kdgate_{name}{labels} {value}");
        }
    };
    let label = |text: &str| text.replace('\\', "\\\\").replace('"', "\\\"").replace('\n', "\\n");
    let files = |value: fn(&History) -> u64| {
        let labels = |one: &History| {
            format!(
                "{{info_hash=\"{}\",torrent=\"{}\",file=\"{}\"}}",
                one.info_hash,
                label(&one.torrent),
                label(&one.file)
            )
        };
        status.histories.iter().map(|one| (labels(one), value(one))).collect::<Vec<_>>()
    };
    let neighbours = |value: fn(&Neighbour) -> u64| {
        let labels = |one: &Neighbour| format!("{{neighbour=\"{}\"}}", one.address);
        status.neighbours.iter().map(|one| (labels(one), value(one))).collect::<Vec<_>>()
    };
    let refusals = |one: &Neighbour| {
        let labels = |number: &u32| format!("{{neighbour=\"{}\",number=\"{number}\"}}", one.address);
        one.refusals.iter().map(|(number, count)| (labels(number), *count)).collect::<Vec<_>>()
    };
    metric("uptime_seconds", "gauge", "Since this run began.", vec![(String::new(), status.uptime)]);
    metric("connections", "gauge", "Connections there are.", vec![(String::new(), status.connections as u64)]);
    metric("blocks", "gauge", "Blocks of a file.", files(|one| one.blocks));
    metric("blocks_believed", "gauge", "Blocks that were judged right in this run.", files(|one| one.believed));
    metric("blocks_damaged_total", "counter", "Blocks found damaged on disk in this run.", files(|one| one.damaged));
    metric("pieces_nowhere", "gauge", "Missing pieces that no connected neighbour has.", files(|one| one.nowhere));
    metric(
        "torrents_refused",
        "gauge",
        "Torrents that were refused.",
        vec![(String::new(), status.refused.len() as u64)],
    );
    metric("taken_bytes_total", "counter", "Bytes of blocks taken from a neighbour.", neighbours(|one| one.taken));
    metric("served_bytes_total", "counter", "Bytes of blocks served to a neighbour.", neighbours(|one| one.served));
    let banned = neighbours(|one| u64::from(one.banned_seconds.is_some()));
    metric("neighbour_banned", "gauge", "Whether a neighbour is banned.", banned);
    let refused = status.neighbours.iter().flat_map(refusals).collect();
    metric("refusals_total", "counter", "Answers to a neighbour, by number.", refused);
    text
}

const STYLE: &str = "body{font:15px/1.4 system-ui,sans-serif;margin:2em auto;max-width:72em;padding:0 1em;color:#1b1b1b;background:#fff}\
h1{font-size:1.4em}h2{font-size:1.1em;margin-top:2em}table{border-collapse:collapse;width:100%}\
th,td{text-align:left;padding:.3em .8em .3em 0;border-bottom:1px solid #ddd;vertical-align:top}th{font-weight:600}\
td.n,th.n{text-align:right}.whole{color:#176b2c}.partly,.judging{color:#8a5a00}.bad{color:#a01414;font-weight:600}\
progress{width:8em;height:.9em}code{font-size:.9em}footer{margin-top:2em;color:#666;font-size:.9em}";

pub fn html(status: &Status) -> String {
    let mut page = String::new();
    let title = in_html(&status.name);
    let _ = write!(
        page,
        "<!DOCTYPE html><html lang=\"en\"><head><meta charset=\"utf-8\"><meta http-equiv=\"refresh\" content=\"5\">\
         <meta name=\"viewport\" content=\"width=device-width\"><title>{title}</title><style>{STYLE}</style></head><body><h1>{title}</h1>"
    );
    page.push_str(&summary(status));
    histories(&mut page, status);
    notes(&mut page, status);
    neighbours_table(&mut page, status);
    let _ = write!(
        page,
        "<footer>{} · up {} s · kdgate {} · <a href=\"/status.json\">JSON</a> · <a href=\"/metrics\">metrics</a></footer></body></html>",
        status.time, status.uptime, status.version
    );
    page
}

fn summary(status: &Status) -> String {
    let whole = status.histories.iter().filter(|one| one.state == "whole").count();
    let damaged: u64 = status.histories.iter().map(|one| one.damaged).sum();
    let mut text = format!("<p>{whole} of {} histories may be believed whole.", status.histories.len());
    if damaged > 0 {
        let blocks = count(damaged, "block");
        let _ = write!(text, " <span class=\"bad\">Damage on this disk was found in {blocks} since it started.</span>");
    }
    text + "</p>"
}

fn histories(page: &mut String, status: &Status) {
    page.push_str(
        "<h2>Histories</h2><table><tr><th>History</th><th>File</th><th class=\"n\">Length</th><th>May be believed</th>\
         <th>Missing blocks are to be had</th></tr>",
    );
    for one in &status.histories {
        let believed = match one.state {
            "whole" => "<span class=\"whole\">whole</span>".into(),
            state => format!(
                "<progress max=\"{}\" value=\"{}\"></progress> <span class=\"{state}\">{} of {} blocks{}</span>",
                one.blocks,
                one.believed,
                one.believed,
                one.blocks,
                if state == "judging" { ", judging what is on disk" } else { "" }
            ),
        };
        let mut where_to = match (one.missing_pieces, one.nowhere) {
            (0, _) => String::new(),
            (_, 0) => "at neighbours".into(),
            (missing, nowhere) if missing == nowhere => "<span class=\"bad\">nowhere now</span>".into(),
            (missing, nowhere) => {
                format!("{} of {missing} pieces at neighbours, the rest nowhere now", missing - nowhere)
            }
        };
        if one.damaged > 0 {
            let _ = write!(where_to, " <span class=\"bad\">{} found damaged</span>", count(one.damaged, "block"));
        }
        if let Some(trouble) = &one.trouble {
            let _ = write!(where_to, " <span class=\"bad\">{}</span>", in_html(trouble));
        }
        let _ = write!(
            page,
            "<tr><td>{}<br><code title=\"{}\">{}</code> <small>{}</small></td><td>{}</td><td class=\"n\">{}</td><td>{believed}</td><td>{where_to}</td></tr>",
            in_html(&one.torrent),
            one.info_hash,
            &one.info_hash[..12],
            in_html(&one.source),
            in_html(&one.file),
            size(one.length)
        );
    }
    page.push_str("</table>");
    if !status.refused.is_empty() {
        page.push_str("<h2>Refused</h2><table><tr><th>Torrent</th><th>Why</th></tr>");
        for one in &status.refused {
            let _ =
                write!(page, "<tr><td>{}</td><td class=\"bad\">{}</td></tr>", in_html(&one.torrent), in_html(&one.why));
        }
        page.push_str("</table>");
    }
}

fn notes(page: &mut String, status: &Status) {
    if status.own_and_followed.is_empty() {
        return;
    }
    page.push_str("<h2>Our own histories, and those that are followed</h2><table><tr><th>Name</th><th>State</th></tr>");
    for one in &status.own_and_followed {
        let class = if one.said.contains("younger") || one.said.starts_with("not ") { "bad" } else { "" };
        let _ =
            write!(page, "<tr><td>{}</td><td class=\"{class}\">{}</td></tr>", in_html(&one.name), in_html(&one.said));
    }
    page.push_str("</table>");
}

fn neighbours_table(page: &mut String, status: &Status) {
    page.push_str(
        "<h2>Neighbours</h2><table><tr><th>Address</th><th>State</th><th class=\"n\">Taken</th><th class=\"n\">Served</th>\
         <th>Refused, by number</th></tr>",
    );
    for one in &status.neighbours {
        let state = match (one.banned_seconds, one.connections) {
            (Some(seconds), _) => format!("<span class=\"bad\">banned for {seconds} s</span>"),
            (None, 0) => format!("not connected <small>{}</small>", in_html(&one.last_end)),
            (None, 1) => "connected".into(),
            (None, connections) => format!("{connections} connections"),
        };
        let refused: Vec<String> = one.refusals.iter().map(|(number, count)| format!("{number}: {count}")).collect();
        let _ = write!(
            page,
            "<tr><td>{}{}</td><td>{state}</td><td class=\"n\">{}</td><td class=\"n\">{}</td><td>{}</td></tr>",
            one.address,
            if one.configured { "" } else { " <small>called us</small>" },
            size(one.taken),
            size(one.served),
            refused.join(", ")
        );
    }
    page.push_str("</table>");
}
