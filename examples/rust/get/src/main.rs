//! Gets a file from a QUIC server, by `hq-interop`, or by HTTP/3 where the server has only that.
//!
//!     get CERT HOST PORT PATH FILE
//!
//! CERT is a PEM file of the certificates that are trusted as roots, HOST the server's name, as its
//! certificate has it, and PATH what is asked for, as `/file`. Until all has come FILE's name ends
//! in `.part`: that file stays behind Ctrl-C, of which the server isn't told either.
//!
//! TLS 1.3 is rustls'; Initial and Handshake packets, and packet protection, are `around`'s; and
//! 1-RTT packets are the endpoint's, of `fennelhammer`. The status is 0 where the file is whole.
//! Else a line says why: [`Status`] has the statuses.
mod client;
mod fetch;
mod reply;

use around::failure::{Failure, Status};
use around::socket::Socket;
use client::Client;
use fetch::Fetch;
use rustls::{Certificate, ClientConfig, RootCertStore};
use std::fs::File;
use std::io::BufReader;
use std::net::{ToSocketAddrs, UdpSocket};
use std::process::ExitCode;

/// What TLS is configured with: the certificates of a file, as roots, and both
/// application protocols.
fn config(roots: &str) -> Result<ClientConfig, Failure> {
    let file = File::open(roots).map_err(|error| Failure::fault(roots, error))?;
    let found = rustls_pemfile::certs(&mut BufReader::new(file));
    let mut store = RootCertStore::empty();
    for root in found.map_err(|error| Failure::fault(roots, error))? {
        store.add(&Certificate(root)).map_err(|error| Failure::fault(roots, error))?;
    }
    if store.is_empty() {
        return Err(Failure::fault(roots, "there is no certificate in it"));
    }
    let mut config = ClientConfig::builder()
        .with_safe_default_cipher_suites()
        .with_safe_default_kx_groups()
        .with_protocol_versions(&[&rustls::version::TLS13])
        .map_err(|error| Failure::fault("TLS", error))?
        .with_root_certificates(store)
        .with_no_client_auth();
    config.alpn_protocols = vec![b"hq-interop".to_vec(), b"h3".to_vec()];
    Ok(config)
}

/// A socket that is connected to the server.
fn connect(host: &str, port: u16) -> Result<Socket, Failure> {
    let wrong = |error| Failure::fault(host, error);
    let mut addresses = (host, port).to_socket_addrs().map_err(wrong)?;
    let address = addresses.find(|address| address.is_ipv4());
    let address = address.ok_or_else(|| Failure::fault(host, "it has no IPv4 address"))?;
    let socket = UdpSocket::bind("0.0.0.0:0").map_err(wrong)?;
    socket.connect(address).map_err(wrong)?;
    Socket::new(socket).map_err(wrong)
}

fn run(words: &[String]) -> Result<(), Failure> {
    let (cert, host, port, path, file) = match words {
        [cert, host, port, path, file] if path.starts_with('/') => (cert, host, port, path, file),
        _ => return Err(Failure::new(Status::Usage, "usage: get CERT HOST PORT /PATH FILE")),
    };
    let wrong = |_| Failure::new(Status::Usage, format!("{}: not a port", port));
    let port = port.parse().map_err(wrong)?;
    let (config, socket) = (config(cert)?, connect(host, port)?);
    let fetch = Fetch::new(format!("{}:{}", host, port), path, file)?;
    let mut client = Client::new(socket, config, host, fetch)?;
    client.run()?;
    let (bytes, ms) = (client.fetch.received, client.now() / 1_000_000);
    let protection = client.link.session.map(|session| session.protection);
    let (refused, updates) = protection.map_or((0, 0), |it| (it.refused, it.updates));
    println!("{} bytes, {} ms, {} packets refused, {} key updates", bytes, ms, refused, updates);
    Ok(())
}

fn main() -> ExitCode {
    let words: Vec<String> = std::env::args().skip(1).collect();
    match run(&words) {
        Ok(()) => ExitCode::SUCCESS,
        Err(failure) => {
            eprintln!("get: {}", failure);
            ExitCode::from(failure.status as u8)
        }
    }
}
