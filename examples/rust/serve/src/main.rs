//! Serves the files of a folder as a QUIC server, by `hq-interop` and HTTP/3.
//!
//!     serve CERT KEY HOST PORT FOLDER
//!
//! CERT and KEY are PEM files: the server's certificate, with those that lead to a root behind it,
//! and its key. HOST is the IPv4 address at which it is to be reached, or a name for one. What is
//! asked for is the name of a file in FOLDER, taken as it is: nothing outside is answered, neither
//! by `..` nor by a symbolic link. It says of each connection how it ended, and serves until it is
//! killed, of which clients aren't told.
//!
//! TLS 1.3 is rustls'; Initial and Handshake packets, and packet protection, are `around`'s; and
//! 1-RTT packets are each endpoint's, of `fennelhammer`. Where it can't begin, a line says why, and
//! the status is 1, or 2 where the arguments are at fault.
mod answer;
mod client;
mod folder;
mod request;
mod server;
mod service;

use around::failure::{Failure, Status};
use around::socket::Socket;
use folder::Folder;
use rustls::server::NoServerSessionStorage;
use rustls::{Certificate, PrivateKey, ServerConfig};
use rustls_pemfile::Item;
use server::Server;
use std::fs::File;
use std::io::BufReader;
use std::net::{ToSocketAddrs, UdpSocket};
use std::process::ExitCode;
use std::sync::Arc;

/// What a PEM file has.
fn items(path: &str) -> Result<Vec<Item>, Failure> {
    let wrong = |error| Failure::fault(path, error);
    let file = File::open(path).map_err(wrong)?;
    rustls_pemfile::read_all(&mut BufReader::new(file)).map_err(wrong)
}

fn certificates(path: &str) -> Result<Vec<Certificate>, Failure> {
    let found = items(path)?.into_iter().filter_map(|item| match item {
        Item::X509Certificate(certificate) => Some(Certificate(certificate)),
        _ => None,
    });
    let found: Vec<Certificate> = found.collect();
    let none = || Failure::fault(path, "there is no certificate in it");
    Some(found).filter(|found| !found.is_empty()).ok_or_else(none)
}

fn key(path: &str) -> Result<PrivateKey, Failure> {
    let found = items(path)?.into_iter().find_map(|item| match item {
        Item::PKCS8Key(key) | Item::RSAKey(key) | Item::ECKey(key) => Some(PrivateKey(key)),
        _ => None,
    });
    found.ok_or_else(|| Failure::fault(path, "there is no key in it"))
}

/// What TLS is configured with: a certificate and its key, both application protocols, and no
/// resumption, for which tickets would have to go in 1-RTT packets.
fn config(cert: &str, key_at: &str) -> Result<ServerConfig, Failure> {
    let wrong = |error| Failure::fault(key_at, error);
    let mut config = ServerConfig::builder()
        .with_safe_default_cipher_suites()
        .with_safe_default_kx_groups()
        .with_protocol_versions(&[&rustls::version::TLS13])
        .map_err(|error| Failure::fault("TLS", error))?
        .with_no_client_auth()
        .with_single_cert(certificates(cert)?, key(key_at)?)
        .map_err(wrong)?;
    config.alpn_protocols = vec![b"hq-interop".to_vec(), b"h3".to_vec()];
    config.session_storage = Arc::new(NoServerSessionStorage {});
    Ok(config)
}

/// A socket at a port of a host.
fn bind(host: &str, port: u16) -> Result<Socket, Failure> {
    let wrong = |error| Failure::fault(&format!("{}:{}", host, port), error);
    let mut addresses = (host, port).to_socket_addrs().map_err(wrong)?;
    let address = addresses.find(|address| address.is_ipv4());
    let address = address.ok_or_else(|| Failure::fault(host, "it has no IPv4 address"))?;
    UdpSocket::bind(address).and_then(Socket::new).map_err(wrong)
}

fn run(words: &[String]) -> Result<(), Failure> {
    let usage = || Failure::new(Status::Usage, "usage: serve CERT KEY HOST PORT FOLDER");
    let (cert, key, host, port, folder) = match words {
        [cert, key, host, port, folder] => (cert, key, host, port, folder),
        _ => return Err(usage()),
    };
    let wrong = |_| Failure::new(Status::Usage, format!("{}: not a port", port));
    let port = port.parse().map_err(wrong)?;
    let (config, folder) = (config(cert, key)?, Folder::new(folder)?);
    Server::new(bind(host, port)?, config, folder).run()
}

fn main() -> ExitCode {
    let words: Vec<String> = std::env::args().skip(1).collect();
    match run(&words) {
        Ok(()) => ExitCode::SUCCESS,
        Err(failure) => {
            eprintln!("serve: {}", failure);
            ExitCode::from(failure.status as u8)
        }
    }
}
