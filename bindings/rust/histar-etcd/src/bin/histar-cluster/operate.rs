//! What an operator and an auditor ask of a cluster, each by one command.
use crate::config::Config;
use crate::Refused;
use histar::Kernel;
use histar_cluster::engine::Pair;
use histar_cluster::{
    audit, beginning, beginning_from, checkpoints, entries, export, range, retired, surveyed, void, Name, Survey,
};
use histar_etcd::{Member, Unanswered};
use std::io::Write;
use std::path::Path;
use std::time::Duration;

/// In this time a node that runs has another fence.
const COMES_BACK: Duration = Duration::from_secs(3);

/// Writes to standard output.
fn write(bytes: &[u8]) -> Result<(), Refused> {
    let mut out = std::io::stdout().lock();
    Ok(out.write_all(bytes).and_then(|()| out.flush())?)
}

/// Begins a cluster, whose boot thread is the node's; at an exported state where a file has one.
pub fn begin(config: &Config, node: Name, from: Option<&Path>) -> Result<(), Refused> {
    let options = config.options(node);
    let pairs = match from {
        None => vec![beginning::<Kernel>(&options)],
        Some(file) => {
            let named = |why: String| format!("{}: {why}", file.display());
            let bytes = std::fs::read(file).map_err(|why| Refused::NoFile(named(why.to_string())))?;
            beginning_from(&options, &bytes).map_err(|why| Refused::No(named(why.to_string())))?.to_vec()
        }
    };
    match config.etcd.put_new(&pairs)? {
        true => Ok(()),
        false => Err(Refused::No(format!("{} has begun", config.cluster))),
    }
}

/// Tells how a cluster is, by keys that have no call and no state.
pub fn status(config: &Config) -> Result<(), Refused> {
    let mut pairs = Vec::new();
    for (from, to) in surveyed(&config.cluster) {
        pairs.extend(config.etcd.keys(&from, &to)?);
    }
    pairs.extend(config.etcd.names(&checkpoints(&config.cluster))?);
    let mut survey = Survey::of(&config.cluster, &pairs);
    for (node, count) in &mut survey.entries {
        *count = config.etcd.count(&entries(&config.cluster, node))?;
    }
    let members = config.etcd.members();
    let lines: String = members.iter().map(|(address, told)| line_of(address, told)).collect();
    write(format!("{survey}{lines}").as_bytes())?;
    let is_well = |told: &Result<Member, Unanswered>| told.as_ref().is_ok_and(|it| it.alarms.is_empty());
    if survey.disputed.is_none() && members.iter().all(|(_, told)| is_well(told)) {
        Ok(())
    } else {
        Err(Refused::Told)
    }
}

fn line_of(address: &str, told: &Result<Member, Unanswered>) -> String {
    match told {
        Err(why) => format!("MEMBER {address}: {why}\n"),
        Ok(Member { size: (bytes, in_use), alarms }) => {
            let alarms: String = alarms.iter().map(|alarm| format!(" ALARM {alarm}")).collect();
            format!("member {address} has {bytes} bytes, {in_use} in use{alarms}\n")
        }
    }
}

/// All keys of the cluster.
fn pairs(config: &Config) -> Result<Vec<Pair>, Refused> {
    let (from, to) = range(&config.cluster);
    Ok(config.etcd.keys(&from, &to)?)
}

/// Writes the log as a dump.
pub fn dump(config: &Config) -> Result<(), Refused> {
    let text =
        audit(&config.cluster, &pairs(config)?).map_err(|fault| Refused::No(format!("{}: {fault}", config.cluster)))?;
    write(text.as_bytes())
}

/// Writes the state.
pub fn exports(config: &Config) -> Result<(), Refused> {
    let bytes = export(&config.cluster, &pairs(config)?)
        .map_err(|fault| Refused::No(format!("{}: {fault}", config.cluster)))?;
    write(&bytes)
}

/// Takes a node out of the cluster that runs no more.
pub fn retire(config: &Config, node: &Name) -> Result<(), Refused> {
    let mut found = Vec::new();
    for (from, to) in surveyed(&config.cluster) {
        found.extend(config.etcd.keys(&from, &to)?);
    }
    let survey = Survey::of(&config.cluster, &found);
    if !survey.entries.contains_key(node) && !survey.standing.iter().any(|it| it.node == *node) {
        return Err(Refused::No(format!("{} has no node {node}", config.cluster)));
    }
    let ranges = retired(&config.cluster, node, &found);
    config.etcd.delete(&ranges)?;
    std::thread::sleep(COMES_BACK);
    match config.etcd.count(&ranges[0])? {
        0 => Ok(()),
        _ => Err(Refused::No(format!("{node} runs: stop it, or revoke its role, and retire it again"))),
    }
}

/// Voids what stands at a place.
pub fn voids(config: &Config, place: u64) -> Result<(), Refused> {
    match config.etcd.put_new(&[(void(&config.cluster, place), Vec::new())])? {
        true => Ok(()),
        false => Err(Refused::No(format!("what stands at {place} is void"))),
    }
}
