//! etcd as the engine of a cluster.
use crate::grpc::{Channel, Fault, Stream};
use crate::tls::Tls;
use crate::wire::*;
use bytes::Bytes;
use histar_cluster::engine::{Answer, Answers, Engine, Event, Pair, Request};
use prost::Message;
use std::sync::atomic::{AtomicI64, AtomicU32, Ordering};
use std::sync::{Arc, Mutex, PoisonError};
use std::time::Duration;
use tokio::runtime::{Builder, Runtime};
use tokio::task::JoinHandle;

/// After this time an answer is taken for lost, and another member is asked. A member that is paused keeps its connections open.
const PATIENCE: Duration = Duration::from_millis(1500);

/// A watch that says nothing for so long is begun anew at another member.
const SILENCE: Duration = Duration::from_secs(3);

/// How many keys the first page has, and one of short values at most. etcd bounds no answer by its bytes, and a value may have 1.5 MiB.
const FIRST: i64 = 16;
const MOST: i64 = 1024;

/// A page of more bytes is asked for again with half as many keys.
const BYTES: usize = 4 << 20;

/// The patience for a page doubles so often with each one that is lost: a member may need long to prepare it.
const DOUBLED: u32 = 5;

/// The members of an etcd, and how they are reached.
#[derive(Clone)]
pub struct Etcd {
    /// `HOST:PORT` of each member: at least one.
    pub members: Vec<String>,
    /// The certificates of the members and the node, for TLS.
    pub tls: Option<Tls>,
    /// The seconds after which a node that says nothing is taken for gone.
    pub lease: i64,
}

/// A client that goes from member to member.
pub(crate) struct Client {
    etcd: Etcd,
    /// The connection, and how many were opened: the next one is to the next member.
    open: tokio::sync::Mutex<(usize, Option<Channel>)>,
    pages: Pages,
}

/// How pages are asked for: one at a time.
struct Pages {
    turn: tokio::sync::Mutex<()>,
    limit: AtomicI64,
    lost: AtomicU32,
}

impl Pages {
    fn new() -> Pages {
        Pages { turn: tokio::sync::Mutex::new(()), limit: AtomicI64::new(FIRST), lost: AtomicU32::new(0) }
    }

    fn patience(&self) -> Duration {
        PATIENCE * (1 << self.lost.load(Ordering::Relaxed).min(DOUBLED))
    }

    /// Takes how a page went that was asked for with so many keys. False where it is to be asked for again, with fewer.
    fn learns(&self, limit: i64, told: &Result<RangeResponse, Fault>) -> bool {
        let size = match told {
            Err(Fault::Lost(_)) => {
                self.lost.fetch_add(1, Ordering::Relaxed);
                BYTES
            }
            Err(Fault::TooLong) => BYTES + 1,
            Err(Fault::Status(..)) => return true,
            Ok(page) => {
                self.lost.store(0, Ordering::Relaxed);
                page.encoded_len()
            }
        };
        let next = if size < BYTES / 4 {
            limit * 2
        } else if size > BYTES / 2 {
            limit / 2
        } else {
            limit
        };
        self.limit.store(next.clamp(1, MOST), Ordering::Relaxed);
        size <= BYTES || limit == 1
    }
}

/// What a node's requests share.
struct Asks {
    client: Client,
    answers: Answers,
    watch: Mutex<Option<JoinHandle<()>>>,
}

/// The end of an exchange: the engine's identity, and the answer.
pub(crate) type Told = Result<(u64, Answer), Fault>;

fn header(header: &Option<Header>) -> (u64, u64) {
    header.as_ref().map_or((0, 0), |header| (header.cluster_id, header.revision as u64))
}

impl Engine for Etcd {
    fn start(self, answers: Answers) -> Box<dyn Fn(u64, Request) + Send> {
        let runtime =
            Builder::new_multi_thread().worker_threads(2).enable_all().build().expect("threads can be started");
        let runtime = Ending(Some(runtime));
        let asks = Arc::new(Asks { client: Client::new(self), answers, watch: Mutex::new(None) });
        Box::new(move |number, request| {
            if let Some(runtime) = &runtime.0 {
                asks.clone().begin(runtime, number, request);
            }
        })
    }
}

/// A runtime that ends without waiting for what is on its way.
struct Ending(Option<Runtime>);

impl Drop for Ending {
    fn drop(&mut self) {
        if let Some(runtime) = self.0.take() {
            runtime.shutdown_background();
        }
    }
}

impl Asks {
    fn begin(self: Arc<Asks>, runtime: &Runtime, number: u64, request: Request) {
        let asks = self.clone();
        if let Request::Watch { from, to, after } = request {
            let watching = runtime.spawn(async move {
                let last = asks.reports(number, from, to, after).await;
                asks.give(number, last);
            });
            if let Some(before) = self.watch.lock().unwrap_or_else(PoisonError::into_inner).replace(watching) {
                before.abort();
            }
        } else {
            runtime.spawn(async move {
                let told = asks.client.act(request).await;
                asks.give(number, told);
            });
        }
    }

    fn give(&self, number: u64, told: Told) -> bool {
        let (engine, answer) = told.unwrap_or_else(|fault| (0, answer_of(fault)));
        self.answers.give(number, engine, answer)
    }

    /// Reports until the watch ends. Gives the last answer.
    async fn reports(&self, number: u64, from: Vec<u8>, to: Vec<u8>, after: u64) -> Told {
        let create =
            WatchCreate { key: from.into(), range_end: to.into(), start_revision: after as i64 + 1, filters: vec![1] };
        let question = WatchRequest { create: Some(create) };
        let (member, mut stream) = self.client.stream("/etcdserverpb.Watch/Watch", &question).await?;
        loop {
            let told: WatchResponse = match tokio::time::timeout(SILENCE, stream.next()).await {
                Ok(told) => told?,
                Err(late) => {
                    self.client.leave(member).await;
                    return Err(late.into());
                }
            };
            let (engine, revision) = header(&told.header);
            if told.compact_revision > 0 {
                return Ok((engine, Answer::Forgotten));
            }
            if told.canceled {
                return Ok((engine, Answer::Ended));
            }
            let answer = if told.created {
                Answer::Watching(revision)
            } else {
                Answer::Events(told.events.into_iter().filter_map(|event| event.kv).map(event_of).collect())
            };
            if !self.answers.give(number, engine, answer) {
                return Ok((engine, Answer::Ended));
            }
        }
    }
}

impl Client {
    pub fn new(etcd: Etcd) -> Client {
        Client { etcd, open: tokio::sync::Mutex::new((0, None)), pages: Pages::new() }
    }

    async fn channel(&self) -> Result<(usize, Channel), Fault> {
        let mut open = self.open.lock().await;
        if let Some(channel) = &open.1 {
            return Ok((open.0, channel.clone()));
        }
        let member = &self.etcd.members[open.0 % self.etcd.members.len()];
        open.0 += 1;
        let connected = tokio::time::timeout(PATIENCE, Channel::connect(member, self.etcd.tls.clone())).await;
        let named = |why: Fault| match why {
            Fault::Lost(why) => Fault::Lost(format!("{member}: {why}")),
            why => why,
        };
        let channel = connected.map_err(Fault::from).and_then(|channel| channel).map_err(named)?;
        open.1 = Some(channel.clone());
        Ok((open.0, channel))
    }

    /// The next request goes to another member.
    async fn leave(&self, number: usize) {
        let mut open = self.open.lock().await;
        if open.0 == number {
            open.1 = None;
        }
    }

    pub async fn ask<Q: Message, R: Message + Default>(&self, path: &str, question: &Q) -> Result<R, Fault> {
        self.ask_for(path, question, usize::MAX, PATIENCE).await
    }

    /// Asks for an answer of so many bytes at most, in a time.
    async fn ask_for<Q: Message, R: Message + Default>(
        &self,
        path: &str,
        question: &Q,
        most: usize,
        patience: Duration,
    ) -> Result<R, Fault> {
        let (number, channel) = self.channel().await?;
        let told = match tokio::time::timeout(patience, channel.call(path, question, most)).await {
            Ok(told) => told,
            Err(late) => Err(late.into()),
        };
        if matches!(told, Err(Fault::Lost(_))) {
            self.leave(number).await;
        }
        told
    }

    async fn stream<Q: Message>(&self, path: &str, question: &Q) -> Result<(usize, Stream), Fault> {
        let (number, channel) = self.channel().await?;
        Ok((number, tokio::time::timeout(PATIENCE, channel.stream(path, question)).await??))
    }

    async fn act(&self, request: Request) -> Told {
        match request {
            Request::Put { key, value, lease, only_new } => {
                self.put(key, value, lease.unwrap_or(0) as i64, only_new).await
            }
            Request::Page { from, to, at } => self.page(from, to, at).await,
            Request::Lease => {
                let granted: LeaseGranted =
                    self.ask("/etcdserverpb.Lease/LeaseGrant", &LeaseGrant { seconds: self.etcd.lease }).await?;
                Ok((header(&granted.header).0, Answer::Lease(granted.id as u64)))
            }
            Request::Keep { lease } => {
                let question = LeaseKeep { id: lease as i64 };
                let (_, mut stream) = self.stream("/etcdserverpb.Lease/LeaseKeepAlive", &question).await?;
                let kept: Done = tokio::time::timeout(PATIENCE, stream.next()).await??;
                Ok((header(&kept.header).0, Answer::Kept))
            }
            Request::Drop { from, to } => {
                let question = DeleteRequest { key: from.into(), range_end: to.into() };
                let done: Done = self.ask("/etcdserverpb.KV/DeleteRange", &question).await?;
                Ok((header(&done.header).0, Answer::Dropped))
            }
            Request::Forget { before } => {
                // (another node may have done so)
                let question = CompactRequest { revision: before as i64 };
                let done: Done = self.ask("/etcdserverpb.KV/Compact", &question).await?;
                Ok((header(&done.header).0, Answer::Dropped))
            }
            Request::Watch { .. } => Err(Fault::Lost("a watch is a stream".into())),
        }
    }

    async fn put(&self, key: Vec<u8>, value: Vec<u8>, lease: i64, only_new: bool) -> Told {
        let key = Bytes::from(key);
        let put = PutRequest { key: key.clone(), value: value.into(), lease };
        if !only_new {
            let done: Done = self.ask("/etcdserverpb.KV/Put", &put).await?;
            let (engine, revision) = header(&done.header);
            return Ok((engine, Answer::Put { revision, is_done: true }));
        }
        self.put_new(key, vec![put]).await
    }

    /// Puts keys in one transaction, where a key is new.
    pub async fn put_new(&self, key: Bytes, puts: Vec<PutRequest>) -> Told {
        let compare = vec![Compare { key, target: Some(Target::Version(0)) }];
        let success = puts.into_iter().map(|put| RequestOp { op: Some(Op::Put(put)) }).collect();
        let done: TxnResponse = self.ask("/etcdserverpb.KV/Txn", &TxnRequest { compare, success }).await?;
        let (engine, revision) = header(&done.header);
        Ok((engine, Answer::Put { revision, is_done: done.succeeded }))
    }

    /// A page, of as many keys as have few enough bytes.
    pub async fn page(&self, from: Vec<u8>, to: Vec<u8>, at: u64) -> Told {
        let _turn = self.pages.turn.lock().await;
        let mut question =
            RangeRequest { key: from.into(), range_end: to.into(), revision: at as i64, ..RangeRequest::default() };
        loop {
            question.limit = self.pages.limit.load(Ordering::Relaxed);
            let most = if question.limit == 1 { usize::MAX } else { BYTES };
            let told = self.ask_for("/etcdserverpb.KV/Range", &question, most, self.pages.patience()).await;
            if self.pages.learns(question.limit, &told) {
                return told.map(page_of);
            }
        }
    }
}

fn page_of(page: RangeResponse) -> (u64, Answer) {
    let (engine, revision) = header(&page.header);
    let pair =
        |kv: KeyValue| Pair { key: kv.key.to_vec(), value: kv.value.to_vec(), created: kv.create_revision as u64 };
    (engine, Answer::Page { revision, pairs: page.kvs.into_iter().map(pair).collect(), is_more: page.more })
}

fn event_of(kv: KeyValue) -> Event {
    Event { key: kv.key.to_vec(), value: kv.value.to_vec(), revision: kv.mod_revision as u64, is_new: kv.version == 1 }
}

/// What a node is told where the engine did not do what was asked.
fn answer_of(fault: Fault) -> Answer {
    match fault {
        Fault::Status(11, why) if why.contains("compacted") => Answer::Forgotten,
        // (14 and 4 are told of what may be done all the same; 8 is also told of too many requests)
        Fault::Status(7 | 8 | 16, why) if !why.contains("too many requests") => Answer::Refused(why),
        Fault::Lost(why) | Fault::Status(_, why) => Answer::Unreached(why),
        Fault::TooLong => Answer::Lost,
    }
}

#[cfg(test)]
mod tests {
    use super::*;

    fn page(bytes: usize) -> Result<RangeResponse, Fault> {
        let value = Bytes::from(vec![0; bytes]);
        Ok(RangeResponse { kvs: vec![KeyValue { value, ..KeyValue::default() }], ..RangeResponse::default() })
    }

    /// The limits of the pages that are asked for after one another, while each has so many bytes a key.
    fn limits(pages: &Pages, count: usize, bytes: usize) -> Vec<(i64, bool)> {
        let ask = |_| {
            let limit = pages.limit.load(Ordering::Relaxed);
            let size = limit as usize * bytes;
            let told = if limit > 1 && size > BYTES { Err(Fault::TooLong) } else { page(size) };
            (limit, pages.learns(limit, &told))
        };
        (0..count).map(ask).collect()
    }

    #[test]
    fn a_page_has_as_many_keys_as_have_few_enough_bytes() {
        let pages = Pages::new();
        let short = limits(&pages, 8, 100);
        assert_eq!(short, [16, 32, 64, 128, 256, 512, 1024, 1024].map(|limit| (limit, true)));
        let long = limits(&pages, 10, 1 << 20);
        assert_eq!(long[..9], [1024, 512, 256, 128, 64, 32, 16, 8, 4].map(|limit| (limit, false)));
        assert_eq!((limits(&pages, 1, 1 << 20), limits(&pages, 1, 8 << 20)), (vec![(1, true)], vec![(1, true)]));
    }

    #[test]
    fn the_patience_for_pages_grows() {
        let pages = Pages::new();
        let mut seconds = Vec::new();
        for _ in 0..7 {
            seconds.push(pages.patience().as_secs_f64());
            pages.learns(16, &Err(Fault::Lost(String::new())));
        }
        assert_eq!(seconds, [1.5, 3.0, 6.0, 12.0, 24.0, 48.0, 48.0]);
        pages.learns(16, &page(1));
        assert_eq!(pages.patience(), PATIENCE);
    }
}
