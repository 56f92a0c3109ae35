//! Why a connection, or what was asked on it, failed.
use std::fmt::Display;
use thiserror::Error;

/// Errors of QUIC (RFC 9000, section 20.1): for a connection that can't be, for transport
/// parameters, the general one, and where those of TLS begin, of which one is
/// no_application_protocol (RFC 7301, section 3.2).
const CONNECTION_REFUSED: u64 = 0x02;
const TRANSPORT_PARAMETER_ERROR: u64 = 0x08;
const PROTOCOL_VIOLATION: u64 = 0x0a;
const CRYPTO_ERROR: u64 = 0x100;
const NO_APPLICATION_PROTOCOL: u64 = CRYPTO_ERROR + 120;

/// With which status the program ends.
#[derive(Clone, Copy, Debug, PartialEq, Eq)]
pub enum Status {
    /// A file, a socket, memory or the library is at fault,
    Fault = 1,
    /// or the arguments are.
    Usage,
    /// Nothing came from the peer for too long.
    Silent,
    /// The server's certificate isn't trusted.
    Certificate,
    /// No application protocol, or no version, is in common.
    NoProtocol,
    NoVersion,
    /// The peer reset a stream, refused what was asked, or closed the connection.
    Refused,
    /// The peer broke a rule.
    Broken,
}

/// Why a connection, or what was asked on it, failed.
#[derive(Debug, Error)]
#[error("{why}")]
pub struct Failure {
    pub status: Status,
    why: String,
    /// By which error of QUIC the peer is told during the handshake, if it is to be told; and by
    /// which one of the application after it.
    pub code: Option<u64>,
    pub application_code: u64,
}

impl Failure {
    pub fn new(status: Status, why: impl Display) -> Self {
        Failure { status, why: why.to_string(), code: None, application_code: status as u64 }
    }

    /// What is at fault here, and why.
    pub fn fault(what: &str, why: impl Display) -> Self {
        Failure::new(Status::Fault, format!("{}: {}", what, why))
    }

    /// A peer with whom there can be no connection.
    pub fn unfit(why: impl Display) -> Self {
        Failure { code: Some(CONNECTION_REFUSED), ..Failure::new(Status::Refused, why) }
    }

    /// A rule that the peer broke.
    pub fn broken(why: impl Display) -> Self {
        let why = format!("the peer broke a rule: {}", why);
        Failure { code: Some(PROTOCOL_VIOLATION), ..Failure::new(Status::Broken, why) }
    }

    /// Transport parameters of the peer that can't be (RFC 9000, sections 7.3 and 7.4).
    pub fn parameters(why: impl Display) -> Self {
        let broken = Failure::broken(format!("its transport parameters: {}", why));
        Failure { code: Some(TRANSPORT_PARAMETER_ERROR), ..broken }
    }

    /// A rule of HTTP/3 that the peer broke, and its error.
    pub fn http3(application_code: u64, why: impl Display) -> Self {
        Failure { application_code, ..Failure::broken(why) }
    }

    /// The peer closed the connection during the handshake.
    pub fn closed(code: u64, text: &[u8]) -> Self {
        if code == NO_APPLICATION_PROTOCOL {
            return Failure::new(
                Status::NoProtocol,
                "no application protocol in common: neither hq-interop nor h3",
            );
        }
        let text = String::from_utf8_lossy(text);
        let why = format!("the peer closed by error {:#x}: {}", code, text.escape_debug());
        Failure::new(Status::Refused, why)
    }

    /// What TLS refused, by this alert.
    pub fn tls(error: &rustls::Error, alert: Option<u8>) -> Self {
        use rustls::Error::*;
        let code = alert.map(|alert| CRYPTO_ERROR + u64::from(alert));
        let refused = match error {
            NoCertificatesPresented
            | UnsupportedNameType
            | InvalidCertificateEncoding
            | InvalidCertificateSignatureType
            | InvalidCertificateSignature
            | InvalidCertificateData(_) => {
                let why = format!("the server's certificate isn't trusted: {}", error);
                Failure::new(Status::Certificate, why)
            }
            _ => Failure::broken(error),
        };
        Failure { code, ..refused }
    }
}

impl From<fennelhammer::Error> for Failure {
    fn from(error: fennelhammer::Error) -> Self {
        Failure::fault("the endpoint", error)
    }
}
