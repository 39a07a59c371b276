//! SHIM for `crate::multibase`: peer ids as text. It lets `peer_id.rs` compile,
//! and no command reaches it.

use alloc::string::String;
use alloc::vec::Vec;

#[derive(Clone, Debug, Eq, PartialEq, thiserror::Error)]
pub enum MultibaseError {
    #[error("input is empty")]
    EmptyInput,
    #[error("base58btc: {character:?} at {index}")]
    InvalidBase58Character { character: char, index: usize },
    #[error("base32: {character:?} at {index}")]
    InvalidBase32Character { character: char, index: usize },
    #[error("base16: {character:?} at {index}")]
    InvalidBase16Character { character: char, index: usize },
    #[error("odd base16 length")]
    OddBase16Length,
}

pub fn encode_base58btc(_: &[u8]) -> String {
    unimplemented!()
}

pub fn decode_base58btc(_: &str) -> Result<Vec<u8>, MultibaseError> {
    unimplemented!()
}

pub fn encode_base32_lower(_: &[u8]) -> String {
    unimplemented!()
}

pub fn decode_base32(_: &str) -> Result<Vec<u8>, MultibaseError> {
    unimplemented!()
}
