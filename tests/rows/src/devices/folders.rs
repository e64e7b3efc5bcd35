//! The files of the system: a registry in a file, and the disks of nodes in a folder. A row makes them where the program
//! runs, and takes them away again.
use crate::devices::fabrics::{REGISTRY, steps};
use crate::devices::memory::call_text;
use crate::words::{Answered, RowFault, add, long, made, words};
use spl_device::{Access, FileSource, Folder, TcpFabric, registry_of};
use spl_edge::{DeviceError, Disk};
use std::{fs, io};

/// Where a call of the system failed, the row has no answer.
fn had<T: Drop>(done: io::Result<T>) -> Result<T, RowFault> {
    done.ok().ok_or(RowFault::BadRow)
}

/// What each step answers on the streams of a registry in a file: there, gone (there is no file) or none (no name is
/// given), and STEP .. The file that is there goes before the first step.
pub fn endpoints(rt: &HostRuntime, text: &str) -> Answered {
    let all = words(rt.alloc(), text)?;
    let [word, words @ ..] = all.as_slice() else {
        return Err(RowFault::BadRow);
    };
    let name = String::from_str(rt.alloc(), "registry-of-a-row")?;
    let given = if *word == "none" { None } else { Some(&name) };
    if *word == "there" {
        had(fs::write(rt, &name, REGISTRY))?;
    }
    let file = match given {
        Some(name) => fs::open(rt, name).ok(),
        None => None,
    };
    let mut source = FileSource::new(rt.alloc(), file);
    let registry = registry_of(rt.alloc(), &mut source)?;
    let mut fabric = TcpFabric::new(rt.alloc(), rt, registry.as_ref())?;
    if *word == "there" {
        had(fs::remove_file(rt, &name))?;
    }
    steps(rt.alloc(), &mut fabric, words)
}

/// Writes to a node's file in a folder, cuts it, and reads as many bytes from the file opened anew.
fn written_and_read(
    rt: &HostRuntime,
    folder: &String,
    text: &str,
    len: u64,
) -> Result<String, DeviceError> {
    let mut first = Folder::open(rt, Some(folder), Access::Change)?;
    first.shelf.pairs[15].second.write_at(0, text.as_bytes())?;
    first.shelf.pairs[15].second.sync()?;
    first.shelf.pairs[15].second.cut(len)?;
    drop(first);
    let mut second = Folder::open(rt, Some(folder), Access::Change)?;
    let mut bytes = vec![in rt.alloc(); b'.'; text.len()]?;
    second.shelf.pairs[15].second.read(0, &mut bytes)?;
    Ok(String::from_utf8_lossy(rt.alloc(), &bytes)?)
}

/// What a folder keeps that is there.
fn over_folder(rt: &HostRuntime, folder: &String, text: &str, len: u64) -> Answered {
    had(fs::create_dir(rt, folder))?;
    let read = written_and_read(rt, folder, text, len);
    let file = format!(in rt.alloc(); "{folder}/d15b")?;
    let has_file = fs::exists(rt, &file);
    had(fs::remove_dir_all(rt, folder))?;
    let mut told = call_text(rt.alloc(), read)?;
    if had(has_file)? {
        add(&mut told, " in ", "d15b")?;
    }
    Ok(told)
}

/// How long a disk in a folder is that is gone.
fn without_folder(rt: &HostRuntime, folder: &String) -> Answered {
    let mut folder = Folder::open(rt, Some(folder), Access::Change)?;
    match folder.shelf.pairs[0].first.len() {
        Ok(len) => made(format!(in rt.alloc(); "{len}")),
        Err(fault) => call_text(rt.alloc(), Err(fault)),
    }
}

/// What the second disk of the last node gives where a text was written to it and cut to a length, and its file's name
/// where that is there: TEXT LENGTH; or the length of a disk in a folder that is not there: gone.
pub fn kept(rt: &HostRuntime, text: &str) -> Answered {
    let folder = String::from_str(rt.alloc(), "disks-of-a-row")?;
    match words(rt.alloc(), text)?.as_slice() {
        ["gone"] => without_folder(rt, &folder),
        [text, len] => over_folder(rt, &folder, text, u64::from(long(len)?)),
        _ => Err(RowFault::BadRow),
    }
}
