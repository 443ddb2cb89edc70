//! A node as a program: it runs until a signal ends it, or a fault.
use crate::config::Config;
use crate::{health, Refused};
use histar::Kernel;
use histar_cluster::{Name, Running};
use sd_notify::NotifyState;
use std::sync::Arc;
use std::time::Duration;
use tokio::net::TcpListener;
use tokio::signal::unix::{signal, SignalKind};

/// Each so long the program looks at its node.
const LOOK: Duration = Duration::from_millis(100);

/// So long the node has to give its fence back.
const LEAVES: Duration = Duration::from_secs(10);

/// Whether a node is ready.
#[derive(PartialEq, Eq, Clone)]
pub enum Ready {
    Is,
    Not(String),
}

/// A node that runs in this program.
pub struct Served {
    pub cluster: Name,
    pub name: Name,
    pub node: Running<Kernel>,
}

impl Served {
    /// Ready is who follows the log and may write, while the engine does what it asks.
    pub fn ready(&self) -> Ready {
        if let Some(fault) = self.node.fault() {
            return Ready::Not(format!("the node has stopped: {fault}"));
        }
        if let Some(trouble) = self.node.trouble() {
            return Ready::Not(trouble);
        }
        match self.node.status() {
            None => Ready::Not("the node looks what the cluster was begun with".into()),
            Some(it) if !it.is_following => {
                Ready::Not(format!("the node loads the log, {} entries so far", it.entries))
            }
            Some(it) if it.incarnation.is_none() => Ready::Not("the node has no fence".into()),
            Some(_) => Ready::Is,
        }
    }
}

/// Tells systemd, where that has started the program.
fn notify(states: &[NotifyState<'_>]) {
    let _ = sd_notify::notify(false, states); // (nobody may listen)
}

/// Runs the node.
pub fn run(config: &Config) -> Result<(), Refused> {
    let name = config.node()?;
    let runtime = tokio::runtime::Builder::new_current_thread().enable_all().build()?;
    runtime.block_on(async {
        let mut ends = [signal(SignalKind::terminate())?, signal(SignalKind::interrupt())?];
        let listener = TcpListener::bind(config.listen).await;
        let listener = listener.map_err(|why| Refused::NoPort(format!("{}: {why}", config.listen)))?;
        let node = Running::open(config.etcd.clone(), config.options(name.clone()));
        let served = Arc::new(Served { cluster: config.cluster.clone(), name, node });
        tokio::spawn(health::serve(listener, served.clone()));
        let [terminated, interrupted] = &mut ends;
        tokio::select! {
            fault = watch(&served) => return Err(fault),
            _ = terminated.recv() => {}
            _ = interrupted.recv() => {}
        }
        notify(&[NotifyState::Stopping]);
        leave(served).await
    })
}

/// Tells how the node is, each time that this changes, until it has stopped.
async fn watch(served: &Served) -> Refused {
    let mut before = None;
    loop {
        let ready = served.ready();
        if let Some(fault) = served.node.fault() {
            return Refused::No(format!("{} of {}: {fault}", served.name, served.cluster));
        }
        if before.as_ref() != Some(&ready) {
            match &ready {
                Ready::Is => {
                    eprintln!("histar-cluster: {} is ready", served.name);
                    notify(&[NotifyState::Ready, NotifyState::Status("ready")]);
                }
                Ready::Not(why) => {
                    eprintln!("histar-cluster: {}: {why}", served.name);
                    notify(&[NotifyState::Status(why)]);
                }
            }
            before = Some(ready);
        }
        tokio::time::sleep(LOOK).await;
    }
}

/// Gives the fence back.
async fn leave(served: Arc<Served>) -> Result<(), Refused> {
    let leaves = tokio::task::spawn_blocking(move || served.node.within(LEAVES).leave());
    match leaves.await {
        Ok(Ok(())) => Ok(()),
        Ok(Err(why)) => Err(Refused::Unanswered(format!("the fence is not given back, it ends with its lease: {why}"))),
        Err(why) => Err(Refused::Unanswered(why.to_string())),
    }
}
