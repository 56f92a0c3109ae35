//! A server and a client that quinn makes, with `hq-interop`: a request is `GET /path` on a stream
//! of its own, and the answer is the file, up to the FIN.
//!
//!     quinn_peer serve PORT CERT KEY FOLDER [OPTION..]   serves the files of FOLDER on loopback
//!     quinn_peer get PORT CERT PATH FILE [OPTION..]      gets one from `localhost`
//!
//! CERT and KEY are PEM files; a client trusts CERT as a root. A file that isn't there is a reset
//! with code 404. Options, for tests: `retry=` validates addresses, `draft=` has no version 1,
//! `alpn=NAME` is in place of `hq-interop`; after so many bytes of a file `reset=BYTES` resets with
//! code 7, `close=BYTES` closes with code 9, and `update=BYTES` updates the keys again and again. A
//! client takes `alpn=NAME` and `update=BYTES`, too; `move=BYTES` goes on from another port again
//! and again, and asks there for what isn't there, as it would send too little else; and
//! `stop=BYTES` wants no more, by code 8.
use quinn::{ClientConfig, Connecting, Connection, Endpoint, EndpointConfig, SendStream};
use rustls::{version::TLS13, Certificate, PrivateKey, RootCertStore};
use std::error::Error;
use std::fs::File;
use std::io::{BufReader, Read, Write};
use std::net::{Ipv4Addr, UdpSocket};
use std::path::{Component, Path, PathBuf};
use std::sync::Arc;
use std::time::Duration;

type Fallible<T> = Result<T, Box<dyn Error + Send + Sync>>;

/// What a server does besides serving.
#[derive(Clone)]
struct Options(Vec<String>);

impl Options {
    fn value(&self, name: &str) -> Option<&str> {
        self.0.iter().find_map(|word| word.strip_prefix(name)?.strip_prefix('='))
    }

    fn number(&self, name: &str) -> usize {
        self.value(name).and_then(|value| value.parse().ok()).unwrap_or(usize::MAX)
    }

    /// Whether so many bytes more are a multiple of an option's number, or go beyond one.
    fn passes(&self, name: &str, before: usize, more: usize) -> bool {
        let step = self.number(name);
        before / step < (before + more) / step
    }
}

fn certificates(path: &str) -> Fallible<Vec<Certificate>> {
    let found = rustls_pemfile::certs(&mut BufReader::new(File::open(path)?))?;
    Ok(found.into_iter().map(Certificate).collect())
}

fn server_config(cert: &str, key: &str, options: &Options) -> Fallible<quinn::ServerConfig> {
    let keys = rustls_pemfile::pkcs8_private_keys(&mut BufReader::new(File::open(key)?))?;
    let key = keys.into_iter().next().ok_or("there is no PKCS #8 key")?;
    let mut crypto = rustls::ServerConfig::builder()
        .with_safe_default_cipher_suites()
        .with_safe_default_kx_groups()
        .with_protocol_versions(&[&TLS13])?
        .with_no_client_auth()
        .with_single_cert(certificates(cert)?, PrivateKey(key))?;
    crypto.alpn_protocols = vec![options.value("alpn").unwrap_or("hq-interop").into()];
    let mut config = quinn::ServerConfig::with_crypto(Arc::new(crypto));
    config.use_retry(options.value("retry").is_some());
    Ok(config)
}

/// The file of a request, if it names one of the folder.
fn open_asked(request: &[u8], folder: &Path) -> Option<File> {
    let path = std::str::from_utf8(request).ok()?.strip_prefix("GET /")?.trim_end();
    let is_plain = Path::new(path).components().all(|part| matches!(part, Component::Normal(_)));
    File::open(folder.join(path)).ok().filter(|_| is_plain)
}

async fn send_file(
    connection: &Connection,
    to: &mut SendStream,
    mut file: File,
    options: &Options,
) -> Fallible<()> {
    let (mut block, mut sent) = (vec![0; 65536], 0);
    loop {
        let len = file.read(&mut block)?;
        if len == 0 {
            return Ok(to.finish().await?);
        }
        to.write_all(&block[..len]).await?;
        sent += len;
        if sent >= options.number("reset") {
            return Ok(to.reset(7u32.into())?);
        }
        if sent >= options.number("close") {
            return Ok(connection.close(9u32.into(), b"enough\nof it"));
        }
        if options.passes("update", sent - len, len) {
            update(connection).await;
        }
    }
}

/// Updates the keys: packets of those in use have to be acknowledged first (RFC 9001, section 6.1).
async fn update(connection: &Connection) {
    tokio::time::sleep(Duration::from_millis(100)).await;
    connection.force_key_update();
}

async fn serve_connection(incoming: Connecting, folder: PathBuf, options: Options) -> Fallible<()> {
    let connection = incoming.await?;
    loop {
        let (mut to, from) = connection.accept_bi().await?;
        match open_asked(&from.read_to_end(4096).await?, &folder) {
            Some(file) => send_file(&connection, &mut to, file, &options).await?,
            None => to.reset(404u32.into())?,
        }
    }
}

async fn serve([port, cert, key, folder]: [&str; 4], options: Options) -> Fallible<()> {
    let socket = UdpSocket::bind((Ipv4Addr::LOCALHOST, port.parse()?))?;
    let mut config = EndpointConfig::default();
    if options.value("draft").is_some() {
        config.supported_versions(vec![0xff00_001d]);
    }
    let server = server_config(cert, key, &options)?;
    let endpoint = Endpoint::new(config, Some(server), socket, quinn::TokioRuntime)?;
    while let Some(incoming) = endpoint.accept().await {
        let (folder, options) = (PathBuf::from(folder), options.clone());
        tokio::spawn(async move {
            let ended = serve_connection(incoming, folder, options).await;
            ended.unwrap_or_else(|why| println!("{:?}", why));
        });
    }
    Ok(())
}

fn client_config(cert: &str, options: &Options) -> Fallible<ClientConfig> {
    let mut roots = RootCertStore::empty();
    certificates(cert)?.iter().try_for_each(|root| roots.add(root))?;
    let mut crypto = rustls::ClientConfig::builder()
        .with_safe_defaults()
        .with_root_certificates(roots)
        .with_no_client_auth();
    crypto.alpn_protocols = vec![options.value("alpn").unwrap_or("hq-interop").into()];
    Ok(ClientConfig::new(Arc::new(crypto)))
}

async fn get([port, cert, path, file]: [&str; 4], options: Options) -> Fallible<()> {
    let endpoint = Endpoint::client((Ipv4Addr::LOCALHOST, 0).into())?;
    let at = (Ipv4Addr::LOCALHOST, port.parse()?).into();
    let config = client_config(cert, &options)?;
    let connection = endpoint.connect_with(config, at, "localhost")?.await?;
    let (mut to, mut from) = connection.open_bi().await?;
    to.write_all(format!("GET {}\r\n", path).as_bytes()).await?;
    to.finish().await?;
    let (mut file, mut got) = (File::create(file)?, 0);
    while let Some(chunk) = from.read_chunk(65536, true).await? {
        let len = chunk.bytes.len();
        file.write_all(&chunk.bytes)?;
        if options.passes("update", got, len) {
            update(&connection).await;
        }
        if options.passes("move", got, len) {
            endpoint.rebind(UdpSocket::bind((Ipv4Addr::LOCALHOST, 0))?)?;
            let (mut to, _) = connection.open_bi().await?;
            to.write_all(format!("GET /{}\r\n", "none".repeat(250)).as_bytes()).await?;
            to.finish().await?;
        }
        got += len;
        if got >= options.number("stop") {
            from.stop(8u32.into())?;
            break;
        }
    }
    connection.close(0u32.into(), b"got");
    Ok(endpoint.wait_idle().await)
}

#[tokio::main(flavor = "current_thread")]
async fn main() -> Fallible<()> {
    let mut words: Vec<String> = std::env::args().skip(1).collect();
    let options = Options(words.split_off(words.len().min(5)));
    match words.iter().map(String::as_str).collect::<Vec<_>>()[..] {
        ["serve", port, cert, key, folder] => serve([port, cert, key, folder], options).await,
        ["get", port, cert, path, file] => get([port, cert, path, file], options).await,
        _ => Err("usage: quinn_peer serve PORT CERT KEY FOLDER [OPTION..], or get ..".into()),
    }
}
