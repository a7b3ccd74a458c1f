//! kd: torrents and files in hand, judged by the proved library. Nothing is decided here: it reads, asks and prints.
#![forbid(unsafe_code)]

mod cat;
mod cli;
mod colour;
mod end;
mod explain;
mod extends;
mod hashed;
mod json;
mod make;
mod out;
mod pieces;
mod place;
mod progress;
mod root;
mod show;
mod store;
mod torrent;
mod verify;
mod whole;

use clap::Parser;
use std::process::ExitCode;

fn main() -> ExitCode {
    match cli::run(cli::Cli::parse()) {
        Ok(verdict) => verdict.code(),
        Err(failure) => {
            if let Some(said) = failure.said() {
                out::warn(said);
            }
            failure.code()
        }
    }
}
