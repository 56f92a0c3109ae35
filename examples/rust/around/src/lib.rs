//! What `get` and `serve` have in common: what stands around an endpoint of `fennelhammer`, which
//! has no handshake and hides nothing.
//!
//! A [`link::Link`] is one end of a connection, first with a [`handshake`], TLS 1.3 by rustls, and
//! then with an endpoint in a [`session`], with packet [`protection`]. [`http3`] stands above it.
pub mod failure;
pub mod frame;
pub mod handshake;
pub mod http3;
pub mod link;
pub mod packet;
pub mod parameters;
pub mod protection;
pub mod session;
pub mod socket;
pub mod space;
