//! The sides that are compared, each with the crate's calls as methods: their signatures are those of the crate's table.
use crate::peer;
use metsroeb::{Batch, Breaks, Comparison, Extension, Refusal, Runs, Summary};

enum Implementation {
    Verified,
    Peer,
}

/// An implementation of the crate's calls.
pub struct Side {
    implementation: Implementation,
}

/// The verified library.
pub static VERIFIED: Side = Side { implementation: Implementation::Verified };

/// The peer.
pub static PEER: Side = Side { implementation: Implementation::Peer };

pub static BOTH: [&Side; 2] = [&VERIFIED, &PEER];

macro_rules! methods {
    ($($(#[$about:meta])* pub fn $function:ident($($arguments:tt)*) -> $told:ty as $call:ident($($lent:ident: $type:ty),* $(,)?) -> $answer:ty;)*) => {
        #[allow(clippy::extra_unused_lifetimes)] // not every answer is a part of what is lent
        impl Side {
            $(pub fn $call<'a>(&self, $($lent: $type),*) -> Result<$answer, Refusal> {
                match self.implementation {
                    Implementation::Verified => metsroeb::$call($($lent),*),
                    Implementation::Peer => peer::$call($($lent),*),
                }
            })*
        }
    };
}

metsroeb::signatures!(methods);
