//! Nodes over a member of etcd, where `etcd` is on the path: it is killed, paused and started anew.
#[path = "../../histar-cluster/tests/simulation/model.rs"]
mod model;

use histar_cluster::{Item, Name, Options, Receipt, Running, Told};
use histar_etcd::Etcd;
use model::{Call, Model};
use std::path::{Path, PathBuf};
use std::process::{Child, Command, Stdio};
use std::sync::atomic::{AtomicU64, Ordering};
use std::sync::Arc;
use std::time::{Duration, Instant};

/// A member of etcd in a folder of its own.
struct Member {
    folder: PathBuf,
    port: u16,
    process: Option<Child>,
}

impl Member {
    fn start(port: u16) -> Option<Member> {
        let folder = std::env::temp_dir().join(format!("histar-etcd-{port}-{}", std::process::id()));
        let mut member = Member { folder, port, process: None };
        member.begin().then_some(member)
    }

    fn begin(&mut self) -> bool {
        let (client, peer) = (format!("http://127.0.0.1:{}", self.port), format!("http://127.0.0.1:{}", self.port + 1));
        let words = ["--listen-client-urls", &client, "--advertise-client-urls", &client, "--listen-peer-urls", &peer];
        let more = [
            "--initial-advertise-peer-urls",
            &peer,
            "--initial-cluster",
            &format!("default={peer}"),
            "--log-level",
            "error",
        ];
        let mut command = Command::new("etcd");
        command.arg("--data-dir").arg(&self.folder).args(words).args(more).stdout(Stdio::null()).stderr(Stdio::null());
        self.process = command.spawn().ok();
        self.process.is_some()
    }

    fn signal(&self, signal: &str) {
        let id = self.process.as_ref().expect("a member").id().to_string();
        assert!(Command::new("kill").args([signal, &id]).status().expect("kill").success());
    }

    fn kill(&mut self) {
        if let Some(mut process) = self.process.take() {
            let _ = (process.kill(), process.wait());
        }
    }

    fn open(&self, node: &str) -> Running<Model> {
        static STARTS: AtomicU64 = AtomicU64::new(1);
        let name = |text| Name::new(text).expect("a name");
        let any = STARTS.fetch_add(1, Ordering::Relaxed) << 20;
        let options = Options { cluster: name("c"), node: name(node), limits: Vec::new(), lanes: 4, interval: 50, any };
        Running::open(Etcd { members: vec![format!("127.0.0.1:{}", self.port)], tls: None, lease: 2 }, options)
    }
}

impl Drop for Member {
    fn drop(&mut self) {
        self.kill();
        let _ = std::fs::remove_dir_all(Path::new(&self.folder));
    }
}

#[test]
fn callers_are_told_what_the_log_has() {
    let Some(mut member) = Member::start(24790) else {
        println!("left out: etcd is not on the path");
        return;
    };
    let north = Arc::new(member.open("north"));
    north.latest().expect("a note"); // (thread 2 belongs to the node that boots first)
    let calls = Arc::new(AtomicU64::new(1));
    let end = Instant::now() + Duration::from_secs(12);
    let callers: Vec<_> = (0..8)
        .map(|_| {
            let (north, calls) = (north.clone(), calls.clone());
            std::thread::spawn(move || {
                let mut told = Vec::new();
                while Instant::now() < end {
                    let number = calls.fetch_add(1, Ordering::Relaxed);
                    let call = Item::Call(Call { thread: 2, number, deed: 0 });
                    match north.submit(&[call]).expect("a node that runs").wait() {
                        Some(Receipt::Told { told: replies, .. }) => match &replies[..] {
                            [Told::Reply(reply)] => told.push((number, Ok(reply.clone()))),
                            other => panic!("{other:?}"),
                        },
                        Some(Receipt::NeverMade) => told.push((number, Err(()))),
                        other => panic!("{other:?}"),
                    }
                }
                told
            })
        })
        .collect();
    let south = member.open("south");
    std::thread::sleep(Duration::from_secs(3));
    member.signal("-STOP");
    std::thread::sleep(Duration::from_secs(3));
    member.signal("-CONT");
    std::thread::sleep(Duration::from_secs(2));
    member.kill();
    std::thread::sleep(Duration::from_millis(500));
    assert!(member.begin());
    let told: Vec<_> = callers.into_iter().flat_map(|caller| caller.join().expect("no caller panics")).collect();
    let east = member.open("east");
    for node in [&*north, &south, &east] {
        node.latest().expect("a note");
        let replies = node.read(|model| model.replies.clone()).expect("a machine");
        for (number, reply) in &told {
            assert_eq!(replies.get(number), reply.as_ref().ok(), "call {number}");
        }
    }
    let answered = told.iter().filter(|(_, reply)| reply.is_ok()).count();
    println!("{answered} calls answered, {} never made", told.len() - answered);
    assert!(answered > 100);
    let keys =
        Etcd { members: vec!["127.0.0.1:24790".into()], tls: None, lease: 2 }.keys(b"/c/", b"/c0").expect("keys");
    let survey = histar_cluster::Survey::of(&Name::new("c").expect("a name"), &keys);
    println!("{survey}");
    assert!(survey.disputed.is_none() && survey.agreed.is_some());
}
