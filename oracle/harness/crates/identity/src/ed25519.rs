//! SHIM for `Ed25519Keypair`: it lets `RawMessage::build_signed` compile, and
//! no command reaches it.

use crate::PeerId;

pub struct Ed25519Keypair;

impl Ed25519Keypair {
    pub fn peer_id(&self) -> PeerId {
        unimplemented!()
    }

    pub fn sign(&self, _: &[u8]) -> [u8; 64] {
        unimplemented!()
    }
}
