//! The calls of a store: their requests, what is expected of each, and how they are shown.

use crate::calls::{hex, put_octets};
use crate::store::{change, read, write};

/// A call of a store. The buffer of a write is given by its length alone; the store of a change is lent with its
/// octets.
#[derive(Clone)]
pub enum StoreCall {
    Write { values: [u64; 3], store_len: usize },
    Read { store: Vec<u8> },
    Change { store: Vec<u8>, tag: u64, value: u64 },
}

impl StoreCall {
    pub fn op(&self) -> &'static str {
        match self {
            StoreCall::Write { .. } => "store write",
            StoreCall::Read { .. } => "store read",
            StoreCall::Change { .. } => "store change",
        }
    }

    pub fn names(&self) -> &'static [&'static str] {
        match self {
            StoreCall::Read { .. } => &["number", "kind", "rate", "phase"],
            _ => &["number"],
        }
    }

    pub fn lent_len(&self) -> Option<usize> {
        match self {
            StoreCall::Write { store_len, .. } => Some(*store_len),
            StoreCall::Read { .. } => None,
            StoreCall::Change { store, .. } => Some(store.len()),
        }
    }

    pub fn read_lens(&self) -> Vec<usize> {
        match self {
            StoreCall::Write { .. } => Vec::new(),
            StoreCall::Read { store } | StoreCall::Change { store, .. } => vec![store.len()],
        }
    }

    /// The request: all numbers as u64, little-endian, then the store.
    pub fn request(&self, laid: u64, to: &mut Vec<u8>) {
        let mut numbers = |list: &[u64]| list.iter().for_each(|number| to.extend(number.to_le_bytes()));
        match self {
            StoreCall::Write { values: [kind, rate, phase], store_len } => {
                numbers(&[11, laid, *kind, *rate, *phase, *store_len as u64]);
            }
            StoreCall::Read { store } => {
                numbers(&[12, laid, store.len() as u64]);
                put_octets(store, to);
            }
            StoreCall::Change { store, tag, value } => {
                numbers(&[13, laid, store.len() as u64, *tag, *value]);
                put_octets(store, to);
            }
        }
    }

    /// The numbers that are expected; the lent buffer is filled, or is the store with one octet changed at most.
    pub fn expected(&self, buffer: &mut [u8]) -> Vec<u64> {
        match self {
            StoreCall::Write { values, .. } => vec![write(*values, buffer)],
            StoreCall::Read { store } => read(store).to_vec(),
            StoreCall::Change { store, tag, value } => {
                buffer.copy_from_slice(store);
                vec![change(buffer, *tag, *value)]
            }
        }
    }

    pub fn shown_numbers(&self) -> String {
        match self {
            StoreCall::Write { values: [kind, rate, phase], store_len } => {
                format!("kind {kind}, rate {rate}, phase {phase}, store_len {store_len}")
            }
            StoreCall::Read { store } => format!("store_len {}", store.len()),
            StoreCall::Change { store, tag, value } => format!("store_len {}, tag {tag}, value {value}", store.len()),
        }
    }

    /// The store in hex, cut after so many octets.
    pub fn shown_rows(&self, cut: usize) -> Option<String> {
        match self {
            StoreCall::Write { .. } => None,
            StoreCall::Read { store } | StoreCall::Change { store, .. } => Some(format!("  store {}", hex(store, cut))),
        }
    }
}
