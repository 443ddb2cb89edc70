//! Certificates, as files in PEM have them, and connections by them.
use openssl::ssl::{SslConnector, SslFiletype, SslMethod, SslVersion};
use openssl::x509::verify::X509CheckFlags;
use std::path::PathBuf;
use std::pin::Pin;
use tokio::net::TcpStream;
use tokio_openssl::SslStream;

/// The files of a node. The name of its certificate is its user of etcd, whose role holds it to its own keys.
#[derive(Clone, Debug)]
pub struct Files {
    /// The certificate of who signed those of the members.
    pub authority: PathBuf,
    /// The node's certificate, and those between it and the authority's.
    pub certificate: PathBuf,
    /// The node's private key.
    pub key: PathBuf,
}

/// Why there is no TLS.
#[derive(Debug, thiserror::Error)]
pub enum TlsFault {
    /// A file can't be read.
    #[error("{}: {why}", file.display())]
    Unread {
        /// The file.
        file: PathBuf,
        /// Why.
        why: std::io::Error,
    },
    /// A file has nothing of its kind, or the key is not the certificate's.
    #[error("{}: {why}", file.display())]
    Wrong {
        /// The file.
        file: PathBuf,
        /// Why.
        why: String,
    },
    /// The library can't be set up.
    #[error("TLS: {0}")]
    Library(#[from] openssl::error::ErrorStack),
}

/// How a node connects by TLS.
#[derive(Clone)]
pub struct Tls(SslConnector);

/// The first reason that the library tells.
fn reason(errors: &openssl::error::ErrorStack) -> String {
    let first = errors.errors().first().and_then(|error| error.reason());
    first.map_or_else(|| errors.to_string(), str::to_string)
}

/// How a node connects by TLS.
///
/// # Errors
/// A file that can't be read or has nothing of its kind, with its name.
pub fn tls(files: &Files) -> Result<Tls, TlsFault> {
    for file in [&files.authority, &files.certificate, &files.key] {
        std::fs::File::open(file).map_err(|why| TlsFault::Unread { file: file.clone(), why })?;
    }
    let wrong = |file: &PathBuf| {
        let file = file.clone();
        move |errors| TlsFault::Wrong { file, why: reason(&errors) }
    };
    let mut builder = SslConnector::builder(SslMethod::tls_client())?;
    builder.set_min_proto_version(Some(SslVersion::TLS1_2))?;
    // (this authority's members alone, none that the machine trusts beside)
    builder.set_cert_store(openssl::x509::store::X509StoreBuilder::new()?.build());
    builder.set_ca_file(&files.authority).map_err(wrong(&files.authority))?;
    builder.set_certificate_chain_file(&files.certificate).map_err(wrong(&files.certificate))?;
    builder.set_private_key_file(&files.key, SslFiletype::PEM).map_err(wrong(&files.key))?;
    builder.check_private_key().map_err(wrong(&files.key))?;
    builder.set_alpn_protos(b"\x02h2")?;
    Ok(Tls(builder.build()))
}

impl Tls {
    /// Connects to a member by a name or an address, which its certificate has to tell.
    pub(crate) async fn connect(&self, host: &str, tcp: TcpStream) -> Result<SslStream<TcpStream>, String> {
        let told = |errors: openssl::error::ErrorStack| reason(&errors);
        let mut configuration = self.0.configure().map_err(told)?;
        configuration
            .param_mut()
            .set_hostflags(X509CheckFlags::NO_PARTIAL_WILDCARDS | X509CheckFlags::NEVER_CHECK_SUBJECT);
        let ssl = configuration.into_ssl(host).map_err(told)?;
        let mut stream = SslStream::new(ssl, tcp).map_err(told)?;
        let done = Pin::new(&mut stream).connect().await;
        let verified = stream.ssl().verify_result();
        done.map_err(|error| match error.ssl_error() {
            _ if verified != openssl::x509::X509VerifyResult::OK => {
                format!("the certificate of {host} is not taken: {}", verified.error_string())
            }
            Some(errors) => reason(errors),
            None => error.to_string(),
        })?;
        Ok(stream)
    }
}
