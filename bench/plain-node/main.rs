//! A plain node process, without contracts: what `splinter serve` is measured beside. It commits batches of circuits among nodes by the
//! same rounds of two-phase commit, keeps what the events of a turn change by one append with two syncs before anything leaves, and makes
//! checkpoints as often. Its operators ask by the same lines over the same socket, as far as bench/nodes asks any; it has no disbands,
//! roots, receipts and watchers, and one kind of command, `set`.
//!
//! usage: plain-node serve REGISTRY NODE DIR [new]
mod cell;
mod journal;
mod lines;
mod node;
mod ports;
mod wire;

use std::env;
use std::fs;
use std::io::Result;
use std::path::Path;
use std::process::exit;

/// The texts behind a key of a registry, one for each node.
fn texts<'a>(registry: &'a str, key: &str) -> Vec<&'a str> {
    let lines = registry.lines().filter(|line| line.starts_with(key));
    lines.filter_map(|line| line.split('"').nth(1)).collect()
}

fn serve(registry: &str, name: &str, folder: &Path, is_new: bool) -> Result<()> {
    let registry = fs::read_to_string(registry)?;
    let names: Vec<String> = texts(&registry, "identity").into_iter().map(String::from).collect();
    let endpoints: Vec<String> = texts(&registry, "endpoints").into_iter().map(String::from).collect();
    let here = names.iter().position(|known| known == name).expect("a node of the registry");
    let mut node = node::Node::new(here as u8, names);
    let journal = if is_new {
        journal::Journal::create(folder)?
    } else {
        journal::Journal::open(folder, |record| node.rebuild(record))?
    };
    node.wake_all();
    ports::Ports::open(here, &endpoints, folder)?.run(&mut node, journal)
}

fn main() {
    let words: Vec<String> = env::args().collect();
    let words: Vec<&str> = words.iter().map(String::as_str).collect();
    let ended = match words[1..] {
        ["serve", registry, name, folder] => serve(registry, name, Path::new(folder), false),
        ["serve", registry, name, folder, "new"] => serve(registry, name, Path::new(folder), true),
        _ => {
            eprintln!("usage: plain-node serve REGISTRY NODE DIR [new]");
            exit(1);
        }
    };
    if let Err(error) = ended {
        eprintln!("plain-node: {error}");
        exit(7);
    }
}
