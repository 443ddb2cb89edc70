//! For benches/cluster.py: what a cluster of kernels does in some seconds, and what bare puts do.
//!
//! `costs puts MEMBERS WATCHERS CALLERS SECONDS`: callers put 72 bytes under keys of their own, which so many watchers read.
//! `costs calls MEMBERS NODES LANES CALLERS CALLS SECONDS`: callers of the first of so many nodes submit so many writes of 64 bytes together.
//! `costs tasks MEMBERS NODES LANES CALLERS CALLS SECONDS`: the same, where each caller is a task and no thread.
//! `costs reads KIND THREADS SECONDS`: threads read 64 bytes of a `kernel` of their own, by a `node`, or each by a `reader`.
//! `costs behind MEMBERS CALLS`: a node begins that lacks so many calls of an entry each, until it has seen all.
//!
//! Each prints how many puts, calls or reads were done, and the milliseconds that it took. With 0 seconds a thread reads 100,000 times, by
//! `read_many`, for a count of instructions.

use bytes::Bytes;
use histar::trusted::{session_of, Record, Thread};
use histar::{label, Call, Entry, Kernel, Limits, Object, Reply};
use histar_cluster::memory::Memory;
use histar_cluster::{limits, Item, Name, Options, Receipt, Running, Told, View};
use histar_etcd::grpc::Channel;
use histar_etcd::wire::{Done, PutRequest, WatchCreate, WatchRequest, WatchResponse};
use histar_etcd::Etcd;
use std::borrow::Cow;
use std::sync::atomic::{AtomicU64, Ordering};
use std::sync::Arc;
use std::time::{Duration, Instant, SystemTime, UNIX_EPOCH};
use tokio::runtime::Builder;

/// The bytes of a put, as many as an entry of one write has.
const BYTES: usize = 72;

fn number(text: &str) -> u64 {
    text.parse().expect("a number")
}

/// A number that is another one at each start.
fn any() -> u64 {
    SystemTime::now().duration_since(UNIX_EPOCH).expect("a time after 1970").as_nanos() as u64
}

async fn watch(member: String, from: String) {
    let channel = Channel::connect(&member, None).await.expect("a member");
    let mut end = from.clone().into_bytes();
    *end.last_mut().expect("a key") += 1;
    let create =
        WatchCreate { key: from.into_bytes().into(), range_end: end.into(), start_revision: 0, filters: vec![1] };
    let question = WatchRequest { create: Some(create) };
    let mut stream = channel.stream("/etcdserverpb.Watch/Watch", &question).await.expect("a watch");
    while stream.next::<WatchResponse>().await.is_ok() {}
}

fn puts(members: &[String], watchers: u64, callers: u64, time: Duration) {
    let runtime = Builder::new_multi_thread().worker_threads(2).enable_all().build().expect("threads");
    let start = any();
    let done = Arc::new(AtomicU64::new(0));
    runtime.block_on(async {
        for at in 0..watchers {
            let member = members[at as usize % members.len()].clone();
            tokio::spawn(watch(member, format!("/bare-{start}/")));
        }
        tokio::time::sleep(Duration::from_millis(200)).await;
        let channel = Channel::connect(&members[0], None).await.expect("a member");
        let began = Instant::now();
        let all: Vec<_> = (0..callers)
            .map(|caller| {
                let (channel, done) = (channel.clone(), done.clone());
                tokio::spawn(async move {
                    for at in 0.. {
                        if began.elapsed() >= time {
                            return;
                        }
                        let key = Bytes::from(format!("/bare-{start}/{caller:08}/{at:08}"));
                        let put = PutRequest { key, value: Bytes::from(vec![7; BYTES]), lease: 0 };
                        let _: Done = channel.call("/etcdserverpb.KV/Put", &put, usize::MAX).await.expect("a put");
                        done.fetch_add(1, Ordering::Relaxed);
                    }
                })
            })
            .collect();
        for it in all {
            it.await.expect("no caller panics");
        }
        println!("{} {}", done.load(Ordering::Relaxed), began.elapsed().as_millis());
    });
}

fn options(cluster: &str, node: u64, lanes: usize, interval: u64) -> Options {
    Options {
        cluster: Name::new(cluster).expect("a name"),
        node: Name::new(&format!("n{node}")).expect("a name"),
        limits: limits(&Limits::pages(1024)),
        lanes,
        interval,
        any: any(),
    }
}

/// A node, which asks another member first than the node before it.
fn open(members: &[String], node: u64, of: impl Fn(u64) -> Options) -> Running<Kernel> {
    let mut members = members.to_vec();
    let first = node as usize % members.len();
    members.rotate_left(first);
    Running::open(Etcd { members, tls: None, lease: 10 }, of(node))
}

/// The first of so many nodes, the others, which follow, and a segment.
fn begin(
    members: &[String],
    nodes: u64,
    of: impl Fn(u64) -> Options,
) -> (Arc<Running<Kernel>>, Vec<Running<Kernel>>, Entry) {
    let running = Arc::new(open(members, 0, &of));
    let segment = segment(&running);
    let followers: Vec<Running<Kernel>> = (1..nodes).map(|it| open(members, it, &of)).collect();
    for it in &followers {
        it.latest().expect("a follower");
    }
    (running, followers, segment)
}

fn segment(node: &Running<Kernel>) -> Entry {
    let made = Call::SegmentCreate { container: Object::ROOT, label: label! { L1 }.into(), quota: 2, pages: 1 };
    match node.call(Thread(2), &made).expect("a segment").reply {
        Ok(Reply::Object(segment)) => Entry::in_root(segment),
        other => panic!("no segment: {other:?}"),
    }
}

fn write_of(entry: Entry) -> Record {
    let write = Call::SegmentWrite { entry, offset: 0, bytes: Cow::Borrowed(&[7; 64]) };
    Record::new(Thread(2), &write).expect("a call")
}

fn calls(members: &[String], nodes: u64, lanes: u64, callers: u64, calls: u64, time: Duration) {
    let cluster = format!("costs-{}", any() % 1_000_000_000);
    let of = |node| options(&cluster, node, lanes as usize, 1 << 40);
    let (running, _followers, segment) = begin(members, nodes, of);
    let record = write_of(segment);
    let done = Arc::new(AtomicU64::new(0));
    let began = Instant::now();
    let all: Vec<_> = (0..callers)
        .map(|_| {
            let items: Vec<Item<Record>> = (0..calls).map(|_| Item::Call(record.clone())).collect();
            let (running, done) = (running.clone(), done.clone());
            std::thread::spawn(move || {
                while began.elapsed() < time {
                    let Some(Receipt::Told { told, .. }) = running.submit(&items).expect("a node").wait() else {
                        panic!("no receipt: {:?}", running.fault());
                    };
                    assert!(told.iter().all(|it| matches!(it, Told::Reply(Ok(Reply::Done)))), "{told:?}");
                    done.fetch_add(calls, Ordering::Relaxed);
                }
            })
        })
        .collect();
    for it in all {
        it.join().expect("no caller panics");
    }
    println!("{} {}", done.load(Ordering::Relaxed), began.elapsed().as_millis());
}

/// What `calls` does, by tasks.
fn tasks(members: &[String], nodes: u64, lanes: u64, callers: u64, calls: u64, time: Duration) {
    let cluster = format!("costs-{}", any() % 1_000_000_000);
    let of = |node| options(&cluster, node, lanes as usize, 1 << 40);
    let (running, _followers, segment) = begin(members, nodes, of);
    let record = write_of(segment);
    let done = Arc::new(AtomicU64::new(0));
    let began = Instant::now();
    let runtime = Builder::new_multi_thread().worker_threads(2).enable_all().build().expect("threads");
    runtime.block_on(async {
        let caller = |_| {
            let items: Vec<Item<Record>> = (0..calls).map(|_| Item::Call(record.clone())).collect();
            let (running, done) = (running.clone(), done.clone());
            tokio::spawn(async move {
                while began.elapsed() < time {
                    let receipt = running.submit(&items).expect("a node").await;
                    assert!(matches!(receipt, Some(Receipt::Told { .. })), "{:?}", running.fault());
                    done.fetch_add(calls, Ordering::Relaxed);
                }
            })
        };
        for it in (0..callers).map(caller).collect::<Vec<_>>() {
            it.await.expect("no caller panics");
        }
    });
    println!("{} {}", done.load(Ordering::Relaxed), began.elapsed().as_millis());
}

/// A node begins once two others have made so many calls.
fn behind(members: &[String], calls: u64) {
    let cluster = format!("behind-{}", any() % 1_000_000_000);
    let of = |node| options(&cluster, node, 64, 10_000);
    let (running, _followers, segment) = begin(members, 2, of);
    let record = write_of(segment);
    std::thread::scope(|scope| {
        for _ in 0..64 {
            scope.spawn(|| {
                for _ in 0..calls.div_ceil(64) {
                    let waiting = running.submit(&[Item::Call(record.clone())]).expect("a node");
                    assert!(matches!(waiting.wait(), Some(Receipt::Told { .. })), "{:?}", running.fault());
                }
            });
        }
    });
    std::thread::sleep(Duration::from_secs(3)); // (they look around each second)
    let began = Instant::now();
    let late = open(members, 2, of);
    late.latest().expect("a note");
    let taken = began.elapsed().as_millis();
    println!("{} {taken}", late.status().map_or(0, |status| status.entries));
}

/// How a thread reads 64 bytes.
type Read<'r> = Box<dyn FnMut() + Send + 'r>;

fn reading(kind: &str, node: &Arc<Running<Kernel>>, entry: Entry) -> Read<'static> {
    let read = move |kernel: View<'_>| {
        assert!(kernel.of(Thread::BOOT).segment_read(entry, 0, 64).is_ok());
    };
    match kind {
        "kernel" => {
            let alone = node.read(|kernel| Kernel::open_at(kernel.checkpoint().expect("a text"))).expect("a machine");
            let alone = alone.expect("a kernel");
            Box::new(move || assert!(session_of(&alone, Thread::BOOT).segment_read(entry, 0, 64).is_ok()))
        }
        "node" => {
            let node = node.clone();
            Box::new(move || node.read(read).expect("a machine"))
        }
        "reader" => {
            let mut reader = node.reader().expect("a reader");
            Box::new(move || reader.read(read).expect("a machine"))
        }
        _ => panic!("other words"),
    }
}

/// The instructions of this function are counted.
#[inline(never)]
fn read_many(mut read: Read<'_>) -> u64 {
    (0..100_000).for_each(|_| read());
    100_000
}

fn read_for(mut read: Read<'_>, time: Duration) -> u64 {
    let (began, mut count) = (Instant::now(), 0);
    while began.elapsed() < time {
        (0..1000).for_each(|_| read());
        count += 1000;
    }
    count
}

fn reads(kind: &str, threads: u64, time: Duration) {
    let node: Arc<Running<Kernel>> = Arc::new(Running::open(Memory::new(), options("reads", 0, 1, 1 << 40)));
    let entry = segment(&node);
    let began = Instant::now();
    let count: u64 = std::thread::scope(|scope| {
        let each = |read| if time.is_zero() { read_many(read) } else { read_for(read, time) };
        let all: Vec<_> =
            (0..threads).map(|_| reading(kind, &node, entry)).map(|it| scope.spawn(move || each(it))).collect();
        all.into_iter().map(|it| it.join().expect("no reader panics")).sum()
    });
    println!("{count} {}", began.elapsed().as_millis());
}

fn main() {
    let words: Vec<String> = std::env::args().skip(1).collect();
    let words: Vec<&str> = words.iter().map(String::as_str).collect();
    let members = |text: &str| text.split(',').map(String::from).collect::<Vec<_>>();
    match words[..] {
        ["puts", of, watchers, callers, seconds] => {
            puts(&members(of), number(watchers), number(callers), Duration::from_secs(number(seconds)))
        }
        ["calls", of, nodes, lanes, callers, together, seconds] => {
            let time = Duration::from_secs(number(seconds));
            calls(&members(of), number(nodes), number(lanes), number(callers), number(together), time)
        }
        ["tasks", of, nodes, lanes, callers, together, seconds] => {
            let time = Duration::from_secs(number(seconds));
            tasks(&members(of), number(nodes), number(lanes), number(callers), number(together), time)
        }
        ["behind", of, calls] => behind(&members(of), number(calls)),
        ["reads", kind, threads, seconds] => reads(kind, number(threads), Duration::from_secs(number(seconds))),
        _ => panic!("other words"),
    }
}
