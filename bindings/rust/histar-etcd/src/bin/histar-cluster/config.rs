//! The configuration: a file in TOML.
use histar::Limits;
use histar_cluster::{limits, Name, Options};
use histar_etcd::{tls, Etcd, Files, TlsFault};
use serde::de::Error;
use serde::{Deserialize, Deserializer};
use std::net::{Ipv4Addr, SocketAddr};
use std::ops::RangeInclusive;
use std::path::{Path, PathBuf};
use std::time::{SystemTime, UNIX_EPOCH};

/// Where `run` tells its health, unless the configuration says where.
const LISTEN: SocketAddr = SocketAddr::new(std::net::IpAddr::V4(Ipv4Addr::LOCALHOST), 9464);

/// Why a configuration is not taken.
#[derive(Debug, thiserror::Error)]
pub enum ConfigFault {
    #[error("{}: {why}", file.display())]
    Unread { file: PathBuf, why: std::io::Error },
    #[error("{}:{line}: {why}", file.display())]
    Wrong { file: PathBuf, line: usize, why: String },
    #[error("{}: `node` is missing: the name of the node that runs", file.display())]
    NoNode { file: PathBuf },
    #[error(transparent)]
    Tls(#[from] TlsFault),
}

/// A configuration, as its file has it.
#[derive(Clone, Debug, Deserialize)]
#[serde(deny_unknown_fields)]
struct Fields {
    #[serde(deserialize_with = "name")]
    cluster: Name,
    #[serde(default, deserialize_with = "some_name")]
    node: Option<Name>,
    #[serde(deserialize_with = "members")]
    members: Vec<String>,
    #[serde(deserialize_with = "pages")]
    pages: u32,
    #[serde(default = "ten_thousand", deserialize_with = "interval")]
    interval: u64,
    #[serde(default = "four", deserialize_with = "lanes")]
    lanes: u64,
    #[serde(default = "ten", deserialize_with = "lease")]
    lease: u64,
    #[serde(default = "listen")]
    listen: SocketAddr,
    tls: Option<Certificates>,
}

/// The files for TLS.
#[derive(Clone, Debug, Deserialize)]
#[serde(deny_unknown_fields)]
struct Certificates {
    authority: PathBuf,
    certificate: PathBuf,
    key: PathBuf,
}

fn ten_thousand() -> u64 {
    10_000
}

fn four() -> u64 {
    4
}

fn ten() -> u64 {
    10
}

fn listen() -> SocketAddr {
    LISTEN
}

fn name<'d, D: Deserializer<'d>>(from: D) -> Result<Name, D::Error> {
    let text = String::deserialize(from)?;
    Name::new(&text).ok_or_else(|| D::Error::custom(format!("{text:?} is no name: 1 to 32 of a to z, 0 to 9 and -")))
}

fn some_name<'d, D: Deserializer<'d>>(from: D) -> Result<Option<Name>, D::Error> {
    name(from).map(Some)
}

fn is_member(text: &str) -> bool {
    let Some((host, port)) = text.rsplit_once(':') else { return false };
    let is_host = match host.strip_prefix('[') {
        Some(rest) => rest.strip_suffix(']').is_some_and(|it| it.parse::<std::net::Ipv6Addr>().is_ok()),
        None => !host.is_empty() && !host.contains(|it: char| it == ':' || it == '/' || it.is_whitespace()),
    };
    is_host && port.parse::<u16>().is_ok_and(|port| port > 0)
}

fn members<'d, D: Deserializer<'d>>(from: D) -> Result<Vec<String>, D::Error> {
    let members = Vec::<String>::deserialize(from)?;
    match members.iter().find(|it| !is_member(it)) {
        Some(wrong) => {
            Err(D::Error::custom(format!("{wrong:?} is no member: HOST:PORT, an address of IPv6 in brackets")))
        }
        None if members.is_empty() => Err(D::Error::custom("a member at least is wanted: HOST:PORT")),
        None => Ok(members),
    }
}

fn within<'d, D: Deserializer<'d>>(from: D, range: RangeInclusive<u64>) -> Result<u64, D::Error> {
    let number = i64::deserialize(from)?;
    let found = u64::try_from(number).ok().filter(|number| range.contains(number));
    found.ok_or_else(|| D::Error::custom(format!("{number} is not from {} to {}", range.start(), range.end())))
}

fn pages<'d, D: Deserializer<'d>>(from: D) -> Result<u32, D::Error> {
    within(from, 4..=1024).map(|pages| pages as u32)
}

fn interval<'d, D: Deserializer<'d>>(from: D) -> Result<u64, D::Error> {
    within(from, 1..=1_000_000)
}

fn lanes<'d, D: Deserializer<'d>>(from: D) -> Result<u64, D::Error> {
    within(from, 1..=256)
}

fn lease<'d, D: Deserializer<'d>>(from: D) -> Result<u64, D::Error> {
    within(from, 2..=3600)
}

/// What is between the first backticks after some words.
fn quoted<'t>(text: &'t str, before: &str) -> Option<&'t str> {
    text.split_once(before)?.1.split('`').next()
}

/// What is wrong, with its line. The parser tells no line of a field that it can read, so that is looked for.
fn wrong(file: PathBuf, text: &str, why: &toml::de::Error) -> ConfigFault {
    let told = why.to_string();
    let told = told.split(" at line ").next().unwrap_or(&told);
    let field = [" field `", " for key `"].iter().find_map(|before| quoted(told, before));
    let field = field.filter(|_| !told.starts_with("missing field")).and_then(|it| it.rsplit('.').next());
    let is_of = |line: &str| {
        field.is_some_and(|it| line.trim_start().strip_prefix(it).is_some_and(|it| it.trim_start().starts_with('=')))
    };
    let lines = text.lines().collect::<Vec<_>>();
    let found = lines.iter().rposition(|line| is_of(line)).or(why.line_col().map(|(line, _)| line));
    let why = told.split(" for key `").next().unwrap_or(told);
    let why = field.filter(|_| !told.contains(" field `")).map_or(why.to_string(), |it| format!("{it}: {why}"));
    ConfigFault::Wrong { file, line: 1 + found.unwrap_or(0), why }
}

/// What is asked of a cluster by a configuration.
pub struct Config {
    file: PathBuf,
    pub cluster: Name,
    node: Option<Name>,
    pub etcd: Etcd,
    pages: u32,
    interval: u64,
    lanes: u64,
    pub listen: SocketAddr,
}

impl Config {
    /// Reads a configuration. Names of files in it are relative to its folder.
    pub fn read(file: &Path) -> Result<Config, ConfigFault> {
        let named = || file.to_path_buf();
        let text = std::fs::read_to_string(file).map_err(|why| ConfigFault::Unread { file: named(), why })?;
        let fields: Fields = toml::from_str(&text).map_err(|why| wrong(named(), &text, &why))?;
        let folder = file.parent().unwrap_or(Path::new(""));
        let files = fields.tls.map(|it| Files {
            authority: folder.join(it.authority),
            certificate: folder.join(it.certificate),
            key: folder.join(it.key),
        });
        let etcd =
            Etcd { members: fields.members, tls: files.as_ref().map(tls).transpose()?, lease: fields.lease as i64 };
        let Fields { cluster, node, pages, interval, lanes, listen, .. } =
            Fields { tls: None, members: Vec::new(), ..fields };
        Ok(Config { file: named(), cluster, node, etcd, pages, interval, lanes, listen })
    }

    /// The node that runs.
    pub fn node(&self) -> Result<Name, ConfigFault> {
        self.node.clone().ok_or(ConfigFault::NoNode { file: self.file.clone() })
    }

    /// How a node starts.
    pub fn options(&self, node: Name) -> Options {
        let now = SystemTime::now().duration_since(UNIX_EPOCH).unwrap_or_default();
        Options {
            cluster: self.cluster.clone(),
            node,
            limits: limits(&Limits::pages(self.pages)),
            lanes: self.lanes as usize,
            interval: self.interval,
            any: now.as_nanos() as u64,
        }
    }
}
