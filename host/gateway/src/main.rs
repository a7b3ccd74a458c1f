//! `kdgate CONFIG` runs the gateway; `kdgate --check CONFIG` says what is wrong with a config.
#![forbid(unsafe_code)]

use kdgate::config::Config;
use kdgate::disk::Folder;
use kdgate::gate::Gate;
use kdgate::{follow, history, http, keeper, link, say};
use std::io::Result;
use std::net::TcpListener;
use std::path::Path;
use std::process::ExitCode;
use std::sync::Arc;
use std::{env, fs, thread};

/// Reading and writing torrents needs most of it: 571 kB.
const STACK: usize = 4 << 20;

fn main() -> ExitCode {
    let words: Vec<String> = env::args().skip(1).collect();
    let (check, path) = match &words[..] {
        [path] if !path.starts_with('-') => (false, path),
        [flag, path] if flag == "--check" => (true, path),
        [flag] if flag == "--version" => {
            println!("kdgate {}", env!("CARGO_PKG_VERSION"));
            return ExitCode::SUCCESS;
        }
        _ => {
            eprintln!("usage: kdgate [--check] CONFIG");
            return ExitCode::from(2);
        }
    };
    let config = match Config::read(Path::new(path)) {
        Ok(config) => config,
        Err(wrong) => {
            wrong.iter().for_each(|line| eprintln!("{path}: {line}"));
            return ExitCode::from(2);
        }
    };
    if check {
        println!("{path}: good");
        return ExitCode::SUCCESS;
    }
    match run(config) {
        Ok(()) => ExitCode::SUCCESS,
        Err(error) => {
            eprintln!("kdgate: {error}");
            ExitCode::FAILURE
        }
    }
}

/// Never comes back: it is ended by killing it. A thread that panics ends all of it, since what it had locked may be half done.
fn run(config: Config) -> Result<()> {
    let told = std::panic::take_hook();
    std::panic::set_hook(Box::new(move |panic| {
        told(panic);
        std::process::abort();
    }));
    let disk = Folder::new(&config.folder)?;
    fs::create_dir_all(disk.root().join("torrents"))?;
    let (listener, page) = (TcpListener::bind(config.listen)?, TcpListener::bind(config.status)?);
    let gate = Gate::new(config, Arc::new(disk));
    say!("started", listen = gate.config.listen, status = format!("http://{}/", gate.config.status));
    http::serve(&gate, page)?;
    let start = |work: fn(&Arc<Gate>)| {
        let gate = gate.clone();
        thread::Builder::new().stack_size(STACK).spawn(move || work(&gate))
    };
    start(keeper::judge)?;
    start(history::run)?;
    start(follow::run)?;
    for neighbour in gate.config.neighbours.clone() {
        let gate = gate.clone();
        thread::Builder::new().stack_size(link::STACK).spawn(move || link::dial(&gate, neighbour))?;
    }
    start(keeper::run)?;
    link::listen(&gate, &listener);
    Ok(())
}
