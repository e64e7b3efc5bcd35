//! Answers rows of calls. It reads rows, a table's name and the words of a call, and prints each with what the call
//! answers after it. Empty lines and lines that begin with # are printed as they are. Its argument says whose tables.

mod checks;
mod devices;
mod disks;
mod groups;
mod runs;
mod words;

use checks::Latest;
use std::{env, io};
use words::{Answered, RowFault, print_answer, row_of};

/// The tables of a subject.
#[derive(Clone, Copy)]
enum Tables {
    Checks,
    Devices,
    Disks,
    Groups,
    Runs,
}

impl Tables {
    fn of(name: &str) -> Option<Tables> {
        match name {
            "checks" => Some(Tables::Checks),
            "devices" => Some(Tables::Devices),
            "disks" => Some(Tables::Disks),
            "groups" => Some(Tables::Groups),
            "runs" => Some(Tables::Runs),
            _ => None,
        }
    }

    fn answer(self, rt: &HostRuntime, latest: &mut Latest, table: &str, rest: &str) -> Answered {
        match self {
            Tables::Checks => checks::answer(rt.alloc(), latest, table, rest),
            Tables::Devices => devices::answer(rt, table, rest),
            Tables::Disks => disks::answer(rt.alloc(), table, rest),
            Tables::Groups => groups::answer(rt.alloc(), table, rest),
            Tables::Runs => runs::answer(rt.alloc(), table, rest),
        }
    }
}

/// The tables that the program's argument names.
fn asked_for(rt: &HostRuntime) -> io::Result<Option<Tables>> {
    let mut words = env::args(rt)?.skip(1);
    Ok(words.next().and_then(|word| Tables::of(word.as_str())))
}

fn main(rt: HostRuntime) -> io::Result<()> {
    let tables = asked_for(&rt)?;
    let mut latest = Latest::new();
    for line in rt.lines(rt.alloc()) {
        let line = line?;
        println!(rt; "{}", line.as_str())?;
        if let Some((table, rest)) = row_of(line.as_str()) {
            let answer = match tables {
                Some(tables) => tables.answer(&rt, &mut latest, table, rest),
                None => Err(RowFault::BadRow),
            };
            print_answer(&rt, answer)?;
        }
    }
    Ok(())
}
