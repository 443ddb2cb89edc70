//! What docs/CLUSTER.md says of certificates and roles, where `etcd`, `etcdctl` and `openssl` are on the path: a node with its own certificate
//! runs, one with another's is refused and says so, and the role of a node can't write what others put.
#[path = "../../histar-cluster/tests/simulation/model.rs"]
mod model;

use histar_cluster::{beginning, Item, Name, Options, Receipt, Running};
use histar_etcd::{tls, Etcd, Files};
use model::{Call, Model};
use std::path::{Path, PathBuf};
use std::process::{Child, Command, Stdio};
use std::time::{Duration, Instant};

/// Certificates, the member with TLS, and the roles.
const SETUP: &str = r#"
set -e
openssl req -x509 -newkey rsa:2048 -nodes -keyout ca.key -out ca.pem -subj /CN=ca -days 2 2>/dev/null
for n in member root operator north south east west; do
    openssl req -newkey rsa:2048 -nodes -keyout $n.key -out $n.csr -subj /CN=$n 2>/dev/null
    printf 'subjectAltName=DNS:localhost,IP:127.0.0.1\n' > ext
    openssl x509 -req -in $n.csr -CA ca.pem -CAkey ca.key -CAcreateserial -out $n.pem -days 2 -extfile ext 2>/dev/null
done
"#;

/// The block of the document, with this machine's addresses.
fn documented() -> String {
    let page = std::fs::read_to_string(concat!(env!("CARGO_MANIFEST_DIR"), "/../../../docs/CLUSTER.md"))
        .expect("docs/CLUSTER.md");
    let block = page.split("```sh\n").nth(1).and_then(|rest| rest.split("```").next()).expect("a block of commands");
    let roles: Vec<&str> = block.lines().filter(|line| !line.starts_with("histar-cluster")).collect();
    format!("set -e\n{}\n", roles.join("\n").replace("north south east", "north south east west"))
}

struct Tls {
    folder: PathBuf,
    port: u16,
    member: Option<Child>,
}

impl Drop for Tls {
    fn drop(&mut self) {
        if let Some(mut member) = self.member.take() {
            let _ = (member.kill(), member.wait());
        }
        let _ = std::fs::remove_dir_all(&self.folder);
    }
}

impl Tls {
    fn shell(&self, script: &str, user: &str) -> bool {
        let file = |end| self.folder.join(format!("{user}.{end}"));
        let mut command = Command::new("sh");
        command
            .args(["-c", script])
            .current_dir(&self.folder)
            .env("ETCDCTL_API", "3")
            .stderr(Stdio::null())
            .stdout(Stdio::null());
        command
            .env("ETCDCTL_ENDPOINTS", format!("https://127.0.0.1:{}", self.port))
            .env("ETCDCTL_CACERT", self.folder.join("ca.pem"));
        command.env("ETCDCTL_CERT", file("pem")).env("ETCDCTL_KEY", file("key"));
        command.status().expect("a shell").success()
    }

    fn begin(&mut self) {
        let client = format!("https://127.0.0.1:{}", self.port);
        let peer = format!("http://127.0.0.1:{}", self.port + 1);
        let words = format!(
            "--listen-peer-urls {peer} --initial-advertise-peer-urls {peer} --initial-cluster default={peer} \
             --client-cert-auth --trusted-ca-file ca.pem --cert-file member.pem --key-file member.key --data-dir data \
             --log-level error"
        );
        let mut command = Command::new("etcd");
        command.args(words.split_whitespace()).args([
            "--listen-client-urls",
            &client,
            "--advertise-client-urls",
            &client,
        ]);
        command.current_dir(&self.folder).stdout(Stdio::null()).stderr(Stdio::null());
        self.member = Some(command.spawn().expect("etcd"));
    }

    fn etcd(&self, user: &str) -> Etcd {
        let file = |end: &str| self.folder.join(format!("{user}.{end}"));
        let files = Files { authority: self.folder.join("ca.pem"), certificate: file("pem"), key: file("key") };
        let members = vec![format!("localhost:{}", self.port)];
        Etcd { members, tls: Some(tls(&files).expect("files")), lease: 5 }
    }

    fn open(&self, node: &str, user: &str) -> Running<Model> {
        Running::open(self.etcd(user), options(node))
    }
}

fn is_there(program: &str) -> bool {
    Command::new(program).arg("version").stdout(Stdio::null()).stderr(Stdio::null()).status().is_ok()
}

/// A member with TLS and the roles of the document. Nothing where a program is not there.
fn with_roles(port: u16) -> Option<Tls> {
    if !["etcd", "etcdctl", "openssl"].iter().all(|program| is_there(program)) {
        println!("left out: etcd, etcdctl or openssl is not on the path");
        return None;
    }
    let folder = std::env::temp_dir().join(format!("histar-roles-{port}-{}", std::process::id()));
    std::fs::create_dir_all(&folder).expect("a folder");
    let mut it = Tls { folder, port, member: None };
    assert!(it.shell(SETUP, "root"), "certificates");
    it.begin();
    std::thread::sleep(Duration::from_secs(2));
    assert!(it.shell(&documented(), "root"), "the commands of docs/CLUSTER.md");
    let operator = it.etcd("operator");
    let begins = |node: &str| operator.put_new(&[beginning::<Model>(&options(node))]);
    assert_eq!([begins("north"), begins("south")], [Ok(true), Ok(false)]);
    Some(it)
}

fn options(node: &str) -> Options {
    let name = |text| Name::new(text).expect("a name");
    Options { cluster: name("files"), node: name(node), limits: Vec::new(), lanes: 1, interval: 50, any: 1 }
}

/// Nodes that have seen all that any of them has put are in one state, or one of them has stopped.
fn are_alike_or_stop(nodes: &[&Running<Model>]) {
    std::thread::sleep(Duration::from_secs(10));
    if nodes.iter().any(|node| node.fault().is_some()) {
        return;
    }
    let note = nodes.iter().map(|node| node.latest().expect("a note")).max().expect("a node");
    nodes.iter().for_each(|node| node.reaches(note).expect("a node that runs"));
    let states: Vec<_> = nodes.iter().map(|it| it.status().map(|it| (it.entries, it.digest))).collect();
    assert!(states.iter().all(|state| *state == states[0]), "{states:?}");
}

fn call(node: &Running<Model>, number: u64) {
    let waiting = node.submit(&[Item::Call(Call { thread: 2, number, deed: 0 })]).expect("a node that runs");
    assert!(matches!(waiting.wait(), Some(Receipt::Told { .. })), "{:?}", node.fault());
}

#[test]
fn what_a_liar_may_put_splits_nobody() {
    let lies = [
        "printf '\\nput /files/log/e/south/02.01/01 x\\nput /files/log/e/south/02.00/01 y\\n\\n\\n' | etcdctl txn",
        "etcdctl del /files/log/e/south/02.01/01",
        "etcdctl put /files/log/e/south/02.00/01 z",
    ];
    for (at, lie) in lies.iter().enumerate() {
        let Some(it) = with_roles(24894 + 2 * at as u16) else { return };
        let (north, west) = (it.open("north", "north"), it.open("west", "west"));
        call(&north, 1);
        west.latest().expect("a note");
        assert!(it.shell(lies[0], "south"), "{}", lies[0]);
        call(&north, 2);
        assert!(at == 0 || it.shell(lie, "south"), "{lie}");
        let east = it.open("east", "east");
        are_alike_or_stop(&[&north, &west, &east]);
    }
}

#[test]
fn a_role_holds_a_node_to_its_own_keys() {
    let Some(it) = with_roles(24890) else { return };
    let north = it.open("north", "north");
    let waiting = north.submit(&[Item::Call(Call { thread: 2, number: 1, deed: 0 })]).expect("a node that runs");
    assert!(matches!(waiting.wait(), Some(Receipt::Told { .. })));

    let south = it.open("south", "north");
    let said = trouble(&south);
    assert!(said.contains("permission denied"), "{said}");

    assert!(it.shell("etcdctl put /files/log/e/south/01.00/01 x", "south"), "its own key");
    for wrong in [
        "put /files/log/e/north/01.00/01 x",
        "del --prefix /files/log/e/north/",
        "del --prefix /files/state/",
        "put /files/fence/north/9 x",
        "put /files/log/s/north/ x",
        "put /files/boot x",
        "put /files/boot/05 x",
        "del /files/boot",
    ] {
        assert!(!it.shell(&format!("etcdctl {wrong}"), "south"), "{wrong}");
    }
    assert!(Path::new(&it.folder).exists());
}

/// What a node says of its trouble, once it does.
fn trouble(node: &Running<Model>) -> String {
    let end = Instant::now() + Duration::from_secs(30);
    loop {
        if let Some(trouble) = node.trouble() {
            return trouble;
        }
        assert!(Instant::now() < end, "a node says nothing");
        std::thread::sleep(Duration::from_millis(50));
    }
}

#[test]
fn why_no_member_answers_is_told() {
    // (a name that nobody has is told of at once or late, as the machine's resolver does)
    for (member, reasons) in [("127.0.0.1:1", ["refused"; 2]), ("no-such-host.invalid:1", ["lookup", "deadline"])] {
        let etcd = Etcd { members: vec![member.into()], tls: None, lease: 5 };
        let said = trouble(&Running::<Model>::open(etcd, options("north")));
        assert!(said.starts_with(&format!("no member of the engine answers: {member}: ")), "{said}");
        assert!(reasons.iter().any(|why| said.contains(why)), "{said}");
    }
    let Some(it) = with_roles(24906) else { return };
    let by = |host: &str| Etcd { members: vec![format!("{host}:{}", it.port)], ..it.etcd("north") };
    call(&Running::open(by("127.0.0.1"), options("north")), 1);
    // (the same address, by a name that the certificate does not tell)
    let said = trouble(&Running::<Model>::open(by("127.1"), options("north")));
    assert!(said.contains("certificate of 127.1 is not taken") && said.contains("mismatch"), "{said}");
    assert!(it.shell(
        "cp ca.pem other.pem; openssl req -x509 -newkey rsa:2048 -nodes -keyout x.key -out ca.pem -subj /CN=x",
        "root"
    ));
    let said = trouble(&it.open("north", "north"));
    assert!(said.contains("certificate"), "{said}");
}
