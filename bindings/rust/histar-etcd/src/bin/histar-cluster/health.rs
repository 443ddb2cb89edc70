//! What a node tells by HTTP: whether it runs, whether it is ready, and metrics.
use crate::serve::{Ready, Served};
use hyper::server::conn::Http;
use hyper::service::service_fn;
use hyper::{header, Body, Method, Request, Response, StatusCode};
use prometheus::{IntGauge, Registry, TextEncoder};
use std::convert::Infallible;
use std::sync::Arc;
use std::time::Duration;
use tokio::net::{TcpListener, TcpStream};
use tokio::sync::Semaphore;

/// So many connections are served at once. The others wait.
const MOST: usize = 64;

/// A connection ends after so long, whether it was read or not.
const PATIENCE: Duration = Duration::from_secs(5);

/// A connection that asks more bytes is ended.
const ASKED: usize = 8 << 10;

/// Serves connections until the program ends.
pub async fn serve(listener: TcpListener, served: Arc<Served>) {
    let room = Arc::new(Semaphore::new(MOST));
    while let Ok(place) = room.clone().acquire_owned().await {
        match listener.accept().await {
            Ok((stream, _)) => {
                let served = served.clone();
                tokio::spawn(async move {
                    let _ = tokio::time::timeout(PATIENCE, connection(stream, served)).await; // (who asked is gone, or too slow)
                    drop(place);
                });
            }
            Err(_) => tokio::time::sleep(Duration::from_millis(100)).await, // (as where no descriptor is left)
        }
    }
}

async fn connection(stream: TcpStream, served: Arc<Served>) -> Result<(), hyper::Error> {
    let answers = service_fn(move |request| {
        let answer = answer(&request, &served);
        async move { Ok::<_, Infallible>(answer) }
    });
    let mut http = Http::new();
    http.http1_only(true).http1_keep_alive(false).max_buf_size(ASKED);
    http.serve_connection(stream, answers).await
}

fn answer(request: &Request<Body>, served: &Served) -> Response<Body> {
    if !matches!(*request.method(), Method::GET | Method::HEAD) {
        return told(StatusCode::METHOD_NOT_ALLOWED, "GET or HEAD\n".into());
    }
    match request.uri().path() {
        "/healthz" => match served.node.fault() {
            None => told(StatusCode::OK, "the node runs\n".into()),
            Some(fault) => told(StatusCode::SERVICE_UNAVAILABLE, format!("the node has stopped: {fault}\n")),
        },
        "/readyz" => match served.ready() {
            Ready::Is => told(StatusCode::OK, "the node is ready\n".into()),
            Ready::Not(why) => told(StatusCode::SERVICE_UNAVAILABLE, format!("{why}\n")),
        },
        "/metrics" => match metrics(served) {
            Ok(text) => told(StatusCode::OK, text),
            Err(why) => told(StatusCode::INTERNAL_SERVER_ERROR, format!("{why}\n")),
        },
        _ => told(StatusCode::NOT_FOUND, "/healthz, /readyz or /metrics\n".into()),
    }
}

fn told(status: StatusCode, text: String) -> Response<Body> {
    let mut response = Response::new(Body::from(text));
    *response.status_mut() = status;
    let kind = header::HeaderValue::from_static("text/plain; version=0.0.4; charset=utf-8");
    response.headers_mut().insert(header::CONTENT_TYPE, kind);
    response
}

/// The metrics in Prometheus' text. One that is not known is not there.
fn metrics(served: &Served) -> prometheus::Result<String> {
    let labels = [("cluster", served.cluster.to_string()), ("node", served.name.to_string())];
    let labels = labels.map(|(name, value)| (name.to_string(), value)).into_iter().collect();
    let registry = Registry::new_custom(Some("histar_cluster".into()), Some(labels))?;
    let gauge = |name: &str, help: &str, value: u64| {
        let gauge = IntGauge::new(name, help)?;
        gauge.set(i64::try_from(value).unwrap_or(i64::MAX));
        registry.register(Box::new(gauge))
    };
    gauge("stopped", "1 where the node has stopped for good.", served.node.fault().is_some().into())?;
    gauge("ready", "1 where the node follows the log and may write.", (served.ready() == Ready::Is).into())?;
    gauge("trouble", "1 where the engine does not do what the node asks.", served.node.trouble().is_some().into())?;
    let Some(status) = served.node.status() else { return TextEncoder::new().encode_to_string(&registry.gather()) };
    gauge("entries", "The entries of the log that the node has played.", status.entries)?;
    gauge("place", "The revision up to which the node has played.", status.reached)?;
    gauge("rules", "The number of the rules.", status.rules)?;
    gauge("waiting", "The submissions without a receipt.", status.waiting as u64)?;
    gauge("namesakes", "Other fences of the node's name.", status.namesakes as u64)?;
    gauge("checkpoint_lacked", "1 where memory lacked for the last checkpoint.", status.unwritten.is_some().into())?;
    if let Some(agreed) = status.agreed {
        gauge("agreed_entries", "The entries after which another node agrees.", agreed)?;
    }
    if let Some(incarnation) = status.incarnation {
        gauge("incarnation", "The node's incarnation.", incarnation)?;
    }
    TextEncoder::new().encode_to_string(&registry.gather())
}
