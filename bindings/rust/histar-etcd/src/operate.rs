//! What an operator asks of etcd: each by a client of its own.
use crate::engine::{Client, Etcd};
use crate::grpc::Fault;
use crate::wire::*;
use histar_cluster::engine::{Answer, Pair};
use std::future::Future;
use tokio::runtime::Builder;

/// So often a range is read again of which etcd has forgotten the revision.
const READ_AGAIN: usize = 5;

/// How a member is.
#[derive(Clone, PartialEq, Eq, Debug)]
pub struct Member {
    /// The bytes of its file, and those of them that are in use.
    pub size: (u64, u64),
    /// Its alarms, as that it has no space.
    pub alarms: Vec<String>,
}

/// Why nothing is done.
#[derive(Clone, PartialEq, Eq, Debug, thiserror::Error)]
pub enum Unanswered {
    /// No member answers.
    #[error("no member of the engine answers: {0}")]
    Unreached(String),
    /// It answers something else.
    #[error("{0}")]
    Refused(String),
    /// The client can't be started.
    #[error("threads can't be started: {0}")]
    NoRuntime(String),
}

impl From<Fault> for Unanswered {
    fn from(fault: Fault) -> Unanswered {
        match fault {
            Fault::Status(_, why) => Unanswered::Refused(why),
            Fault::Lost(why) => Unanswered::Unreached(why),
            Fault::TooLong => Unanswered::Refused("an answer is too long".into()),
        }
    }
}

/// From a key on, up to another one.
type Range = (Vec<u8>, Vec<u8>);

impl Etcd {
    /// Puts keys, all at once, if the first is not there. False where it is.
    ///
    /// # Errors
    /// Why this is not known.
    pub fn put_new(&self, pairs: &[(Vec<u8>, Vec<u8>)]) -> Result<bool, Unanswered> {
        let Some((first, _)) = pairs.first() else { return Ok(true) };
        let put = |(key, value): &(Vec<u8>, Vec<u8>)| PutRequest {
            key: key.clone().into(),
            value: value.clone().into(),
            lease: 0,
        };
        let puts: Vec<PutRequest> = pairs.iter().map(put).collect();
        let told = self.tried(|client| {
            let (first, puts) = (first.clone().into(), puts.clone());
            async move { client.put_new(first, puts).await }
        })?;
        Ok(matches!(told, (_, Answer::Put { is_done: true, .. })))
    }

    /// Deletes the keys of ranges.
    ///
    /// # Errors
    /// Why this is not known.
    pub fn delete(&self, ranges: &[Range]) -> Result<(), Unanswered> {
        for (from, to) in ranges {
            let question = DeleteRequest { key: from.clone().into(), range_end: to.clone().into() };
            let _: Done = self.tried(|client| {
                let question = question.clone();
                async move { client.ask("/etcdserverpb.KV/DeleteRange", &question).await }
            })?;
        }
        Ok(())
    }

    /// How many keys a range has.
    ///
    /// # Errors
    /// Why this is not known.
    pub fn count(&self, range: &Range) -> Result<u64, Unanswered> {
        Ok(self.ranged(range, |question| RangeRequest { count_only: true, ..question })?.count as u64)
    }

    /// The keys of a range, which are few, without their values.
    ///
    /// # Errors
    /// Why they are not known.
    pub fn names(&self, range: &Range) -> Result<Vec<Pair>, Unanswered> {
        let told = self.ranged(range, |question| RangeRequest { keys_only: true, ..question })?;
        let pair = |kv: KeyValue| Pair { key: kv.key.to_vec(), value: Vec::new(), created: kv.create_revision as u64 };
        Ok(told.kvs.into_iter().map(pair).collect())
    }

    fn ranged(
        &self,
        (from, to): &Range,
        of: impl Fn(RangeRequest) -> RangeRequest,
    ) -> Result<RangeResponse, Unanswered> {
        let question =
            of(RangeRequest { key: from.clone().into(), range_end: to.clone().into(), ..Default::default() });
        self.tried(|client| {
            let question = question.clone();
            async move { client.ask("/etcdserverpb.KV/Range", &question).await }
        })
    }

    /// How each member is, or why it does not answer, by its address.
    pub fn members(&self) -> Vec<(String, Result<Member, Unanswered>)> {
        let of = |address: &String| {
            let alone = Etcd { members: vec![address.clone()], ..self.clone() };
            let told: Result<StatusResponse, Unanswered> = alone
                .tried(|client| async move { client.ask("/etcdserverpb.Maintenance/Status", &StatusRequest {}).await });
            let member =
                |told: StatusResponse| Member { size: (told.size as u64, told.in_use as u64), alarms: told.alarms };
            (address.clone(), told.map(member))
        };
        self.members.iter().map(of).collect()
    }

    /// All keys from one up to another, at one revision.
    ///
    /// # Errors
    /// Why they are not known.
    pub fn keys(&self, from: &[u8], to: &[u8]) -> Result<Vec<Pair>, Unanswered> {
        let mut again = 0;
        loop {
            match self.alone(|client| pages(client, from.to_vec(), to.to_vec(), 2 * self.members.len()))? {
                Some(found) => return Ok(found),
                None if again < READ_AGAIN => again += 1,
                None => return Err(Unanswered::Refused("etcd forgets what it had faster than it is read".into())),
            }
        }
    }

    /// Does something by a client, which is tried at each member.
    fn tried<T, F: Future<Output = Result<T, Fault>>>(&self, act: impl Fn(Client) -> F) -> Result<T, Unanswered> {
        let mut members = self.members.clone();
        loop {
            let etcd = Etcd { members: members.clone(), ..self.clone() };
            match etcd.alone(&act) {
                Err(Unanswered::Unreached(_)) if members.len() > 1 => drop(members.remove(0)),
                told => return told,
            }
        }
    }

    fn alone<T, F: Future<Output = Result<T, Fault>>>(&self, act: impl FnOnce(Client) -> F) -> Result<T, Unanswered> {
        let runtime = Builder::new_current_thread().enable_all().build();
        let runtime = runtime.map_err(|error| Unanswered::NoRuntime(error.to_string()))?;
        Ok(runtime.block_on(act(Client::new(self.clone())))?)
    }
}

/// Reads a range by pages of one revision. None where etcd has forgotten it meanwhile.
async fn pages(client: Client, mut from: Vec<u8>, to: Vec<u8>, tries: usize) -> Result<Option<Vec<Pair>>, Fault> {
    let (mut found, mut at, mut lost) = (Vec::new(), 0, 0);
    loop {
        match client.page(from.clone(), to.clone(), at).await {
            Ok((_, Answer::Page { revision, pairs, is_more })) => {
                at = if at == 0 { revision } else { at };
                found.extend(pairs);
                match found.last().filter(|_| is_more) {
                    Some(last) => from = [&last.key[..], &[0]].concat(),
                    None => return Ok(Some(found)),
                }
            }
            Err(Fault::Status(11, why)) if why.contains("compacted") => return Ok(None),
            Err(Fault::Lost(_)) if lost < tries => lost += 1,
            Err(fault) => return Err(fault),
            Ok(_) => return Ok(None),
        }
    }
}
