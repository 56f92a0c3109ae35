//! What a server makes of a client's first datagrams, before it knows the client's address, and of
//! its transport parameters.
use around::failure::Failure;
use around::link::{Link, LEAST_INITIAL};
use around::packet::packets;
use around::parameters::{agree, append};
use fennelhammer::Settings;
use rustls::server::{ClientHello, ResolvesServerCert};
use rustls::sign::CertifiedKey;
use rustls::version::TLS13;
use rustls::{ClientConfig, RootCertStore, ServerConfig};
use std::sync::Arc;

const HERE: u64 = 1;
const ELSEWHERE: u64 = 2;

/// A server has no certificate: each handshake fails at the client's first message.
struct NoCertificate;

impl ResolvesServerCert for NoCertificate {
    fn resolve(&self, _: ClientHello<'_>) -> Option<Arc<CertifiedKey>> {
        None
    }
}

/// A client's first datagram, and a server to which it is to come.
fn begun() -> (Vec<u8>, Link) {
    let client = ClientConfig::builder()
        .with_safe_default_cipher_suites()
        .with_safe_default_kx_groups()
        .with_protocol_versions(&[&TLS13])
        .unwrap()
        .with_root_certificates(RootCertStore::empty())
        .with_no_client_auth();
    let server = ServerConfig::builder()
        .with_safe_default_cipher_suites()
        .with_safe_default_kx_groups()
        .with_protocol_versions(&[&TLS13])
        .unwrap()
        .with_no_client_auth()
        .with_cert_resolver(Arc::new(NoCertificate));
    let mut client = Link::client(Settings::default(), client, "localhost", 0).unwrap();
    let datagram = sent(&mut client).unwrap();
    let asked = packets(&datagram).remove(0);
    let server = Link::server(Settings::default(), Arc::new(server), &asked, HERE, 0).unwrap();
    (datagram, server)
}

fn sent(link: &mut Link) -> Option<Vec<u8>> {
    let mut room = vec![0; 65536];
    let transmit = link.poll(0, &mut room).unwrap()?;
    room.truncate(transmit.len);
    Some(room)
}

/// Closes too go only up to three times the bytes that came (RFC 9000, section 8.1).
#[test]
fn closes_within_limit() {
    let (mut datagram, mut server) = begun();
    assert_eq!(datagram.len(), LEAST_INITIAL);
    let failure = server.receive(0, HERE, &mut datagram).unwrap_err();
    assert_eq!(failure.code.map(|code| code >> 8), Some(1), "{}", failure);
    let close = |server: &mut Link| {
        server.close(0, Err(&failure)).unwrap();
        sent(server).map(|datagram| datagram.len())
    };
    let closes: Vec<_> = (0..5).map(|_| close(&mut server)).collect();
    let full = Some(LEAST_INITIAL);
    assert_eq!(closes, [full, full, full, None, None]);
    assert!(server.is_over());
}

/// A long header from another address than the first datagram's changes nothing.
#[test]
fn stays_at_address() {
    let (mut datagram, mut server) = begun();
    server.receive(0, ELSEWHERE, &mut datagram.clone()).unwrap();
    assert!(!server.is_answered() && sent(&mut server).is_none());
    assert!(server.receive(0, HERE, &mut datagram).is_err() && server.is_answered());
}

/// Parameters say which connection IDs there were: each once, and no others.
#[test]
fn parameters() {
    let told = |original: Option<&[u8]>| {
        let mut parameters = vec![0x04, 1, 9];
        append(&mut parameters, b"own", original);
        parameters
    };
    let (of_client, of_server) = (told(None), told(Some(b"first")));
    assert!(agree(&of_client, b"own", None, None));
    assert!(agree(&of_server, b"own", Some(b"first"), None));
    assert!(!agree(&of_server, b"own", None, None), "a server's");
    assert!(!agree(&of_client, b"own", Some(b"first"), None), "a client's");
    assert!(!agree(&of_client, b"other", None, None), "another ID");
    assert!(!agree(&of_client, b"own", None, Some(b"retry")), "no Retry");
    assert!(!agree(&of_client[..of_client.len() - 1], b"own", None, None), "cut short");
    assert!(!agree(&[&of_client[..], &[0x0f]].concat(), b"own", None, None), "malformed");
    assert!(!agree(&[&of_client[..], &of_client].concat(), b"own", None, None), "twice");
    let code = Failure::parameters("malformed").code;
    assert_eq!(code, Some(0x08)); // TRANSPORT_PARAMETER_ERROR (RFC 9000, section 7.4).
}
