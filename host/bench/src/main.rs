//! The proved library and ordinary Rust doing the same work, in one process.
//!
//!   bench                a table for each job: best time of several interleaved rounds, ratio to plain Rust = 1.00
//!   bench jobs           the jobs to count instructions of, a line each: name, ratio asked, versions
//!   bench JOB VERSION    does a job once by one version, so that its instructions can be counted from outside
//!   bench JOB            gets the same job ready and doesn't do it: what to take off

mod asking;
mod careful;
mod framing;
mod jobs;
mod lanes;
mod measure;
mod plain;
mod saving;
mod scene;
mod writer;
mod younger;

use jobs::Job;

fn main() {
    let arguments: Vec<String> = std::env::args().skip(1).collect();
    match &arguments[..] {
        [] => jobs::all().iter().filter(|job| job.is_timed).for_each(table),
        [word] if word == "jobs" => jobs::all().iter().filter(|job| job.is_counted).for_each(names),
        [name] => drop((find(name).ready)()),
        [name, version] => once(&find(name), version),
        _ => panic!("usage: bench [jobs | JOB [VERSION]]"),
    }
}

fn find(name: &str) -> Job {
    jobs::all().into_iter().find(|job| job.name == name).expect("a job's name")
}

/// A job's name, the ratio asked or `-`, its versions.
fn names(job: &Job) {
    let asked = if job.asked.is_empty() { "-" } else { job.asked };
    println!("{} {asked} {}", job.name, job.versions.join(" "));
}

fn once(job: &Job, version: &str) {
    let mut versions = (job.ready)();
    let at = job.versions.iter().position(|name| *name == version).expect("a version's name");
    versions[at].run();
}

/// One line for each version: job, version, ns, MB/s, ratio, and the ratio asked for.
fn table(job: &Job) {
    let best = measure::best_of_rounds(&mut (job.ready)());
    for (version, time) in job.versions.iter().zip(&best) {
        let speed = job.bytes as f64 / time * 1000.0;
        let is_ours = *version == job.entry_point;
        let asked = if is_ours { job.asked } else { "" };
        let ratio = time / best[0];
        println!("{:<18} {version:<16} {time:>12.0} {speed:>8.0} {ratio:>7.2} {asked:>7}", job.name);
    }
}
