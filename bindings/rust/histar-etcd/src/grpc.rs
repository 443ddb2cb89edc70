//! gRPC over HTTP/2, as much of it as etcd needs: calls with one answer, and streams of answers.
use crate::tls::Tls;
use bytes::{Buf, BufMut, Bytes, BytesMut};
use h2::client::SendRequest;
use h2::{RecvStream, SendStream};
use http::{HeaderMap, Method, Request, Version};
use prost::Message;
use tokio::io::{AsyncRead, AsyncWrite};
use tokio::net::TcpStream;

/// Why a call has no answer.
#[derive(Debug)]
pub enum Fault {
    /// The connection is gone, or there was none, or no answer came in time: what was asked may be done, now or later, or not. The reason.
    Lost(String),
    /// The engine answered by a status other than 0.
    Status(u32, String),
    /// The answer has more bytes than were asked for.
    TooLong,
}

impl<E: std::error::Error> From<E> for Fault {
    fn from(error: E) -> Fault {
        Fault::Lost(error.to_string())
    }
}

/// A connection to one member.
#[derive(Clone)]
pub struct Channel {
    send: SendRequest<Bytes>,
    authority: String,
    scheme: &'static str,
}

fn frame<M: Message>(message: &M) -> Bytes {
    let len = message.encoded_len();
    let mut out = BytesMut::with_capacity(5 + len);
    out.put_u8(0);
    out.put_u32(len as u32);
    message.encode(&mut out).expect("a buffer that grows has room");
    out.freeze()
}

/// The bytes of a message of which the beginning has arrived.
fn length(buffer: &BytesMut) -> Option<usize> {
    let len = buffer.get(1..5)?.try_into().ok()?;
    Some(u32::from_be_bytes(len) as usize)
}

/// Takes a whole message from what has arrived.
fn message<M: Message + Default>(buffer: &mut BytesMut) -> Result<Option<M>, Fault> {
    let Some(len) = length(buffer).filter(|len| buffer.len() >= 5 + len) else { return Ok(None) };
    buffer.advance(5);
    Ok(Some(M::decode(buffer.split_to(len).freeze())?))
}

fn status(headers: &HeaderMap) -> Result<(), Fault> {
    let text = |name| headers.get(name).and_then(|value| value.to_str().ok());
    match text("grpc-status").and_then(|value| value.parse().ok()) {
        None | Some(0) => Ok(()),
        Some(number) => Err(Fault::Status(number, text("grpc-message").unwrap_or("").to_string())),
    }
}

/// Waits for more of an answer. False at its end.
async fn more(body: &mut RecvStream, buffer: &mut BytesMut) -> Result<bool, Fault> {
    let Some(chunk) = body.data().await else { return Ok(false) };
    let chunk = chunk?;
    body.flow_control().release_capacity(chunk.len())?;
    buffer.extend_from_slice(&chunk);
    Ok(true)
}

impl Channel {
    /// Connects to a member, `HOST:PORT`, an address of IPv6 in brackets; by TLS where that is given.
    pub async fn connect(address: &str, tls: Option<Tls>) -> Result<Channel, Fault> {
        let tcp = TcpStream::connect(address).await?;
        tcp.set_nodelay(true)?;
        match tls {
            None => Channel::over(tcp, address, "http").await,
            Some(tls) => {
                let host = address.rsplit_once(':').map_or(address, |(host, _)| host);
                let host = host.trim_start_matches('[').trim_end_matches(']');
                let stream = tls.connect(host, tcp).await.map_err(Fault::Lost)?;
                Channel::over(stream, address, "https").await
            }
        }
    }

    async fn over<T>(io: T, address: &str, scheme: &'static str) -> Result<Channel, Fault>
    where
        T: AsyncRead + AsyncWrite + Send + Unpin + 'static,
    {
        let mut builder = h2::client::Builder::new();
        builder.initial_window_size(16 << 20).initial_connection_window_size(64 << 20).max_frame_size(1 << 20);
        let (send, connection) = builder.handshake(io).await?;
        tokio::spawn(connection);
        Ok(Channel { send, authority: address.to_string(), scheme })
    }

    async fn open(&self, path: &str) -> Result<(h2::client::ResponseFuture, SendStream<Bytes>), Fault> {
        let request = Request::builder()
            .method(Method::POST)
            .uri(format!("{}://{}{path}", self.scheme, self.authority))
            .version(Version::HTTP_2)
            .header("content-type", "application/grpc")
            .header("te", "trailers")
            .body(())?;
        let mut send = self.send.clone().ready().await?;
        Ok(send.send_request(request, false)?)
    }

    /// A call with one answer, of so many bytes at most.
    pub async fn call<Q: Message, R: Message + Default>(
        &self,
        path: &str,
        question: &Q,
        most: usize,
    ) -> Result<R, Fault> {
        let (response, mut stream) = self.open(path).await?;
        stream.send_data(frame(question), true)?;
        let response = response.await?;
        status(response.headers())?;
        let mut body = response.into_body();
        let mut buffer = BytesMut::new();
        while more(&mut body, &mut buffer).await? {
            if length(&buffer).is_some_and(|len| len > most) {
                return Err(Fault::TooLong);
            }
        }
        if let Some(trailers) = body.trailers().await? {
            status(&trailers)?;
        }
        message(&mut buffer)?.ok_or_else(|| Fault::Lost("an answer ends too soon".into()))
    }

    /// A question with many answers.
    pub async fn stream<Q: Message>(&self, path: &str, question: &Q) -> Result<Stream, Fault> {
        let (response, mut send) = self.open(path).await?;
        send.send_data(frame(question), false)?;
        let response = response.await?;
        status(response.headers())?;
        Ok(Stream { _send: send, body: response.into_body(), buffer: BytesMut::new() })
    }
}

/// The answers of a stream, which ends where this is dropped.
pub struct Stream {
    _send: SendStream<Bytes>,
    body: RecvStream,
    buffer: BytesMut,
}

impl Stream {
    /// Waits for the next answer.
    pub async fn next<R: Message + Default>(&mut self) -> Result<R, Fault> {
        loop {
            if let Some(answer) = message(&mut self.buffer)? {
                return Ok(answer);
            }
            if !more(&mut self.body, &mut self.buffer).await? {
                if let Some(trailers) = self.body.trailers().await? {
                    status(&trailers)?;
                }
                return Err(Fault::Lost("a stream ended".into()));
            }
        }
    }
}
