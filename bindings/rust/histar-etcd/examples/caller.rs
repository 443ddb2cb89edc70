//! For tests of faults: a node whose callers make threads and cut them off again, and a check of what they were told. Where HISTAR_TLS names a
//! folder, all connect by TLS: it has the certificate and the key of each node and of the operator, who begins the cluster.
//!
//! `caller prepare CLUSTER MEMBERS NODE..` is the first node, which begins the cluster if nobody has, and prints a thread for each, which belongs to it.
//! `caller run CLUSTER MEMBERS NODE THREAD FILE CALLERS SECONDS` writes a line into FILE before each call and one after it.
//! `caller check CLUSTER MEMBERS DUMP` keeps what is put into the log, of which the nodes drop nothing before. Once it is told THREAD FILE of each
//! file, a line each, it plays the whole log, says what of the files it does not have, and writes it into DUMP.

use histar::trusted::{Record, Thread};
use histar::{label, Call, Entry, Kernel, Limits, Object, Refused, Reply};
use histar_cluster::engine::{Engine, Pair};
use histar_cluster::memory::Memory;
use histar_cluster::{audit, limits, range, Item, Machine, Name, Options, Receipt, Running, Told, Unrestored, Written};
use histar_etcd::grpc::{Channel, Fault};
use histar_etcd::wire::{Done, KeyValue, PutRequest, WatchCreate, WatchRequest, WatchResponse};
use histar_etcd::{tls, Etcd, Files};
use std::collections::{BTreeMap, HashMap};
use std::fs::File;
use std::io::Write;
use std::sync::atomic::{AtomicU64, Ordering};
use std::sync::mpsc::{channel, RecvTimeoutError};
use std::sync::{Arc, Mutex, MutexGuard};
use std::time::{Duration, Instant, SystemTime, UNIX_EPOCH};

/// A kernel that knows what each record was answered.
struct Probe {
    kernel: Kernel,
    answered: HashMap<Vec<u8>, Vec<Result<Reply, Refused>>>,
}

impl Machine for Probe {
    type Call = Record;
    type Reply = Result<Reply, Refused>;
    type View<'m> = &'m mut Probe;
    const RULES: u64 = Kernel::RULES;

    fn boot(limits: &[u8]) -> Result<Probe, String> {
        Ok(Probe { kernel: <Kernel as Machine>::boot(limits)?, answered: HashMap::new() })
    }
    fn set_rules(&mut self, rules: u64) -> bool {
        self.kernel.set_rules(rules)
    }
    fn play(&mut self, call: &Record) -> Self::Reply {
        let reply = self.kernel.play(call);
        let mut bytes = Vec::new();
        call.put(&mut bytes);
        self.answered.entry(bytes).or_default().push(reply.clone());
        reply
    }
    fn view(&mut self) -> &mut Probe {
        self
    }
    fn is_live(&self, thread: u64) -> bool {
        Machine::is_live(&self.kernel, thread)
    }
    fn checkpoint(&self) -> Written {
        Written::Never
    }
    fn restore(_limits: &[u8], _state: &[u8]) -> Result<Probe, Unrestored> {
        Err(Unrestored::NoState)
    }
    fn thread(call: &Record) -> u64 {
        Kernel::thread(call)
    }
    fn made(call: &Record, reply: &Self::Reply) -> Option<u64> {
        Kernel::made(call, reply)
    }
    fn put_call(call: &Record, out: &mut Vec<u8>) {
        Kernel::put_call(call, out)
    }
    fn take_call(bytes: &mut &[u8]) -> Option<Record> {
        Kernel::take_call(bytes)
    }
    fn put_reply(reply: &Self::Reply, out: &mut Vec<u8>) {
        Kernel::put_reply(reply, out)
    }
}

fn name(text: &str) -> Name {
    Name::new(text).expect("a name")
}

/// How somebody connects.
fn etcd(members: &str, user: &str) -> Etcd {
    let connected = |folder: String| {
        let file = |name: &str| format!("{folder}/{name}").into();
        let files = Files {
            authority: file("ca.pem"),
            certificate: file(&format!("{user}.pem")),
            key: file(&format!("{user}.key")),
        };
        tls(&files).expect("files")
    };
    let tls = std::env::var("HISTAR_TLS").ok().map(connected);
    Etcd { members: members.split(',').map(String::from).collect(), tls, lease: 3 }
}

fn open<M: Machine + Send + 'static>(engine: impl Engine, cluster: &str, node: &str) -> Running<M>
where
    M::Reply: Send,
{
    let now = SystemTime::now().duration_since(UNIX_EPOCH).expect("a time after 1970");
    let options = Options {
        cluster: name(cluster),
        node: name(node),
        limits: limits(&Limits::pages(1024)),
        lanes: 4,
        interval: 1000,
        any: now.as_nanos() as u64,
    };
    Running::open(engine, options)
}

/// Making a thread whose entry point is the number of the call.
fn making(thread: u64, number: u64) -> Record {
    let call = Call::ThreadCreate {
        container: Object::ROOT,
        label: label! { L1 }.into(),
        quota: 1,
        clearance: label! { L2 }.into(),
        entry_point: number,
    };
    Record::new(Thread(thread), &call).expect("a call")
}

fn prepare(cluster: &str, members: &str, nodes: &[String]) {
    let first = open::<Kernel>(etcd(members, &nodes[0]), cluster, &nodes[0]);
    for node in nodes {
        let to = Name::new(node).expect("a name");
        let made = first.submit(&[Item::Call(making(2, 0))]).expect("a node").wait();
        let Some(Receipt::Told { told, .. }) = made else { panic!("no thread was made: {made:?}") };
        let [Told::Reply(Ok(Reply::Object(thread)))] = &told[..] else { panic!("no thread was made: {told:?}") };
        let handed = first.submit(&[Item::HandOver { thread: thread.0, to }]).expect("a node").wait();
        assert!(matches!(handed, Some(Receipt::Told { .. })), "{handed:?}");
        println!("{node} {}", thread.0);
    }
}

fn told_of(receipt: Option<Receipt<Result<Reply, Refused>>>, number: u64) -> (String, Option<Object>) {
    match receipt {
        Some(Receipt::Told { told, note }) => match &told[..] {
            [Told::Reply(Ok(Reply::Object(made)))] => {
                (format!("a {number} {} 0 {}\n", note.place, made.0), Some(*made))
            }
            [Told::Reply(Err(refused))] => (format!("a {number} {} {} 0\n", note.place, refused.reason.number()), None),
            other => panic!("another reply: {other:?}"),
        },
        Some(Receipt::NeverMade) => (format!("n {number}\n"), None),
        Some(Receipt::MadeUnseen) => (format!("u {number}\n"), None),
        Some(Receipt::Unknown) | None => (format!("q {number}\n"), None),
    }
}

fn run(words: &[String]) {
    let [cluster, members, node, thread, file, callers, seconds] = words else { panic!("other words") };
    let number = |text: &String| text.parse::<u64>().expect("a number");
    let (thread, callers) = (number(thread), number(callers));
    let running = Arc::new(open::<Kernel>(etcd(members, node), cluster, node));
    let out = Arc::new(File::options().create(true).append(true).open(file).expect("a file"));
    let end = Instant::now() + Duration::from_secs(number(seconds));
    let start = SystemTime::now().duration_since(UNIX_EPOCH).expect("a time after 1970").as_millis() as u64;
    // (other starts of the node have other numbers)
    let calls = Arc::new(AtomicU64::new(start << 20));
    let writes = |out: &File, line: &str| {
        let mut out = out;
        out.write_all(line.as_bytes()).expect("a file that can be written");
    };
    let all: Vec<_> = (0..callers)
        .map(|_| {
            let (running, out, calls) = (running.clone(), out.clone(), calls.clone());
            std::thread::spawn(move || {
                while Instant::now() < end {
                    let number = calls.fetch_add(1, Ordering::Relaxed);
                    writes(&out, &format!("s {number}\n"));
                    let Ok(waiting) = running.submit(&[Item::Call(making(thread, number))]) else { return };
                    let (line, made) = told_of(waiting.wait(), number);
                    writes(&out, &line);
                    if let Some(made) = made {
                        let cut = Call::Unref { entry: Entry::in_root(made) };
                        let cut = Record::new(Thread(thread), &cut).expect("a call");
                        let Ok(waiting) = running.submit(&[Item::Call(cut)]) else { return };
                        let gone = waiting.wait();
                        assert!(!matches!(&gone, Some(Receipt::Told { told, .. }) if told[..] == [Told::OtherNode]));
                    }
                }
            })
        })
        .collect();
    all.into_iter().for_each(|caller| caller.join().expect("no caller panics"));
    println!("{node}: {:?} {:?}", running.status().map(|it| (it.reached, it.entries, it.incarnation)), running.fault());
    std::process::exit(i32::from(running.fault().is_some()));
}

/// The keys of a log, by their places, also those that were dropped meanwhile: as they were put first.
type Pairs = BTreeMap<(u64, Vec<u8>), Pair>;

/// A member that reports nothing for so long is left for the next one.
const SILENCE: Duration = Duration::from_secs(1);

/// Whoever keeps a log. It follows the log by a watch, which has what was put and dropped between two looks too.
struct Kept {
    cluster: String,
    etcd: Etcd,
    pairs: Mutex<Pairs>,
    // The revision up to which all was reported.
    reached: AtomicU64,
}

impl Kept {
    fn pairs(&self) -> MutexGuard<'_, Pairs> {
        self.pairs.lock().expect("nobody panics")
    }

    /// Follows the log for good. Where it was dropped first, nothing can be told of it.
    fn follow(&self) {
        let runtime = tokio::runtime::Builder::new_current_thread().enable_all().build().expect("a runtime");
        for member in self.etcd.members.iter().cycle() {
            if let Ok(revision) = runtime.block_on(self.follow_at(member)) {
                println!("FAULT whoever checks is too slow: the log up to {revision} was dropped before it was kept");
                std::process::exit(1);
            }
        }
    }

    /// Follows the log at a member, up to a revision that was forgotten.
    async fn follow_at(&self, member: &str) -> Result<i64, Fault> {
        let (from, to) = range(&name(&self.cluster));
        let after = self.reached.load(Ordering::Relaxed) as i64;
        let create =
            WatchCreate { key: from.into(), range_end: to.into(), start_revision: after + 1, filters: vec![1] };
        let question = WatchRequest { create: Some(create) };
        let channel = tokio::time::timeout(SILENCE, Channel::connect(member, self.etcd.tls.clone())).await??;
        let mut stream =
            tokio::time::timeout(SILENCE, channel.stream("/etcdserverpb.Watch/Watch", &question)).await??;
        loop {
            let told: WatchResponse = tokio::time::timeout(SILENCE, stream.next()).await??;
            if told.compact_revision > 0 {
                return Ok(told.compact_revision);
            }
            if told.canceled {
                return Err(Fault::Lost("a watch has ended".into()));
            }
            told.events.into_iter().filter_map(|event| event.kv).for_each(|kv| self.takes(kv));
        }
    }

    fn takes(&self, kv: KeyValue) {
        let (from, _) = range(&name(&self.cluster));
        let is_of_log = ["boot", "log/e/", "log/c/"].iter().any(|it| kv.key[from.len()..].starts_with(it.as_bytes()));
        if is_of_log && kv.version == 1 {
            let pair = Pair { key: kv.key.to_vec(), value: kv.value.to_vec(), created: kv.create_revision as u64 };
            self.pairs().insert((pair.created, pair.key.clone()), pair);
        }
        self.reached.store(kv.mod_revision as u64, Ordering::Relaxed);
    }

    /// Tells the nodes how far it is, as a node tells how far it has played: they drop nothing else, up to four marks back.
    fn tell(&self) -> bool {
        let place = self.reached.load(Ordering::Relaxed);
        place > 0 && self.etcd.members.iter().any(|member| put_fence(member, &self.etcd, &self.cluster, place).is_ok())
    }

    /// Waits until all is kept that is there by now.
    fn catch_up(&self) {
        let (from, to) = range(&name(&self.cluster));
        let last = loop {
            if let Ok(pairs) = self.etcd.keys(&from, &to) {
                break pairs.iter().map(|pair| pair.created).max().unwrap_or(0);
            }
        };
        while self.reached.load(Ordering::Relaxed) < last {
            std::thread::sleep(Duration::from_millis(50));
        }
    }

    /// An engine with these keys alone.
    fn engine(&self) -> Memory {
        let memory = Memory::new();
        let kept = self.pairs();
        let mut pairs = kept.values().peekable();
        while let Some(pair) = pairs.next() {
            let mut changes = vec![(pair.key.clone(), Some(pair.value.clone()))];
            while let Some(other) = pairs.next_if(|other| other.created == pair.created) {
                changes.push((other.key.clone(), Some(other.value.clone())));
            }
            let mut store = memory.store();
            store.revision = pair.created - 1;
            store.transact(&changes);
        }
        memory
    }
}

fn put_fence(member: &str, etcd: &Etcd, cluster: &str, mut place: u64) -> Result<(), Fault> {
    let runtime = tokio::runtime::Builder::new_current_thread().enable_all().build().expect("a runtime");
    let mut value = Vec::new();
    while place >= 128 {
        value.push(place as u8 | 128);
        place >>= 7;
    }
    value.push(place as u8);
    let put =
        PutRequest { key: format!("/{cluster}/fence/check/0").into_bytes().into(), value: value.into(), lease: 0 };
    runtime.block_on(async {
        let asked = async {
            Channel::connect(member, etcd.tls.clone()).await?.call("/etcdserverpb.KV/Put", &put, usize::MAX).await
        };
        let _: Done = tokio::time::timeout(Duration::from_secs(1), asked).await??;
        Ok(())
    })
}

/// Keeps the log until the names of files are told, each after the thread that its node calls by.
fn keep(cluster: &str, members: &str) -> (Arc<Kept>, Vec<String>) {
    let etcd = etcd(members, "check");
    let kept = Kept { cluster: cluster.into(), etcd, pairs: Mutex::default(), reached: AtomicU64::new(0) };
    let kept = Arc::new(kept);
    let follower = kept.clone();
    std::thread::spawn(move || follower.follow());
    while !kept.tell() {
        std::thread::sleep(Duration::from_millis(50));
    }
    println!("follows");
    let (sender, told) = channel();
    std::thread::spawn(move || std::io::stdin().lines().map_while(Result::ok).for_each(|line| drop(sender.send(line))));
    let mut files = Vec::new();
    loop {
        match told.recv_timeout(Duration::from_secs(1)) {
            Ok(file) => files.push(file),
            Err(RecvTimeoutError::Timeout) => drop(kept.tell()),
            Err(RecvTimeoutError::Disconnected) => break,
        }
    }
    kept.catch_up();
    (kept, files)
}

fn check(words: &[String]) {
    let [cluster, members, dump] = words else { panic!("other words") };
    let (kept, files) = keep(cluster, members);
    let pairs: Vec<Pair> = kept.pairs().values().cloned().collect();
    std::fs::write(dump, audit(&name(cluster), &pairs).expect("a dump")).expect("a file that can be written");
    let running = open::<Probe>(kept.engine(), cluster, "check");
    running.latest().expect("the log is played");
    let answered = running.read(|probe| std::mem::take(&mut probe.answered)).expect("a kernel");
    let entries = running.status().map_or(0, |status| status.entries);
    let made_of = |thread: u64, number: u64| {
        let mut bytes = Vec::new();
        making(thread, number).put(&mut bytes);
        answered.get(&bytes).cloned().unwrap_or_default()
    };
    let (mut faults, mut told, mut never, mut unseen, mut open_calls, mut open_made) = (0, 0, 0, 0, 0, 0);
    let mut fault = |what: String| {
        faults += 1;
        println!("FAULT {what}");
    };
    for line in files {
        let (thread, file) = line.split_once(' ').expect("a thread and a file");
        let thread: u64 = thread.parse().expect("a thread");
        let text = std::fs::read_to_string(file).expect("a file");
        let mut lines: HashMap<u64, Vec<&str>> = HashMap::new();
        // (a node that was killed may have written half a line)
        for line in text.split_inclusive('\n').filter(|line| line.ends_with('\n')) {
            let words: Vec<&str> = line.split_whitespace().collect();
            let number = words[1].parse().expect("a number");
            if words[0] == "s" {
                lines.entry(number).or_default();
            } else {
                lines.insert(number, words);
            }
        }
        for (number, words) in lines {
            let made = made_of(thread, number);
            if made.len() > 1 {
                fault(format!("{number} was made {} times", made.len()));
            }
            match words.first() {
                None | Some(&"q") => {
                    open_calls += 1;
                    open_made += made.len();
                }
                Some(&"n") => {
                    never += 1;
                    if !made.is_empty() {
                        fault(format!("{number} was told never to be made, and was"));
                    }
                }
                Some(&"u") => {
                    unseen += 1;
                    if made.is_empty() {
                        fault(format!("{number} was told to be made, and was not"));
                    }
                }
                _ => {
                    told += 1;
                    let is_so = match made.first() {
                        Some(Ok(Reply::Object(object))) => words[3] == "0" && words[4] == object.0.to_string(),
                        Some(Err(refused)) => words[3] == refused.reason.number().to_string(),
                        _ => false,
                    };
                    if !is_so {
                        fault(format!("{words:?} was told, and the log has {made:?}"));
                    }
                }
            }
        }
    }
    println!(
        "{entries} entries; {told} calls answered, {never} never made, {unseen} made unseen, {open_calls} without an answer \
         ({open_made} of them made): {faults} faults"
    );
    std::process::exit(i32::from(faults > 0));
}

fn main() {
    let words: Vec<String> = std::env::args().skip(1).collect();
    match words.first().map(String::as_str) {
        Some("prepare") => prepare(&words[1], &words[2], &words[3..]),
        Some("run") => run(&words[1..]),
        Some("check") => check(&words[1..]),
        _ => panic!("other words"),
    }
}
