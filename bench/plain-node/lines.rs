//! The words of the lines that operators ask.
use crate::wire::{Address, Batch, Transaction};

pub fn bytes_of(digits: &str) -> Option<Vec<u8>> {
    if digits.len() % 2 != 0 || !digits.is_ascii() {
        return None;
    }
    (0..digits.len()).step_by(2).map(|at| u8::from_str_radix(&digits[at..at + 2], 16).ok()).collect()
}

pub fn digits_of(bytes: &[u8]) -> String {
    bytes.iter().map(|byte| format!("{byte:02x}")).collect()
}

pub fn address_of(digits: &str) -> Option<Address> {
    bytes_of(digits)?.try_into().ok()
}

/// The positions of a roster's nodes, that of the lowest service first, as `a000:scabbard:alpha,b000:scabbard:beta`.
pub fn members_of(roster: &str, names: &[String]) -> Option<Vec<u8>> {
    let mut services: Vec<Vec<&str>> = roster.split(',').map(|service| service.split(':').collect()).collect();
    services.sort();
    let position = |name: &str| Some(names.iter().position(|known| known == name)? as u8);
    services.iter().map(|words| position(words.get(2)?)).collect()
}

/// A batch, as `7` and `tx out: set:ADDRESS=2a`.
pub fn batch_of(id: &str, words: &[&str]) -> Option<Batch> {
    let mut transactions: Vec<Transaction> = Vec::new();
    for word in words {
        if *word == "tx" {
            transactions.push(Transaction { outputs: vec![], sets: vec![] });
            continue;
        }
        let transaction = transactions.last_mut()?;
        match word.split_once(':')? {
            ("out", prefix) => transaction.outputs.push(bytes_of(prefix)?),
            ("set", rest) => {
                let (address, value) = rest.split_once('=')?;
                transaction.sets.push((address_of(address)?, bytes_of(value)?));
            }
            _ => return None,
        }
    }
    if transactions.is_empty() || transactions.len() > 16 {
        return None;
    }
    Some(Batch { id: id.parse().ok()?, transactions })
}
