//! `histar-cluster`: a node of a cluster, and what an operator and an auditor ask.
mod config;
mod health;
mod operate;
mod serve;

use clap::{Parser, Subcommand};
use config::{Config, ConfigFault};
use histar_cluster::Name;
use histar_etcd::{TlsFault, Unanswered};
use std::path::PathBuf;
use std::process::ExitCode;

/// What a configuration has.
const CONFIGURED: &str = "CONFIG is a file in TOML:
  cluster = \"files\"
  node = \"north\"                      (for run)
  members = [\"etcd-1:2379\", \"10.0.0.2:2379\"]
  pages = 64
  interval = 10000                    (nodes compare states after so many entries)
  lanes = 4                           (so many entries of a node are on their way at once)
  lease = 10                          (seconds)
  listen = \"127.0.0.1:9464\"           (/healthz, /readyz, /metrics)
  [tls]                               (in PEM, beside the file)
  authority = \"ca.pem\"
  certificate = \"north.pem\"
  key = \"north.key\"";

/// A node of a cluster of label kernels over etcd, and what its operator asks
#[derive(Parser)]
#[command(version, after_help = CONFIGURED, disable_help_subcommand = true)]
struct Arguments {
    #[command(subcommand)]
    command: Command,
}

#[derive(Subcommand)]
enum Command {
    /// Run the node until SIGTERM, and give its fence back
    Run {
        /// The configuration
        config: PathBuf,
    },
    /// Begin the cluster
    Begin {
        /// The configuration
        config: PathBuf,
        /// The node that the boot thread belongs to
        #[arg(value_parser = name)]
        node: Name,
        /// A state that export wrote, at which the cluster begins
        #[arg(long, value_name = "FILE")]
        from: Option<PathBuf>,
    },
    /// Tell nodes, agreement, lag, sizes and alarms
    Status {
        /// The configuration
        config: PathBuf,
    },
    /// Write the state, for begin --from
    Export {
        /// The configuration
        config: PathBuf,
    },
    /// Write the log as a dump, for histar-audit
    Audit {
        /// The configuration
        config: PathBuf,
    },
    /// Take a node out that runs no more
    Retire {
        /// The configuration
        config: PathBuf,
        /// The node
        #[arg(value_parser = name)]
        node: Name,
    },
    /// Void what stands where all nodes have stopped
    Void {
        /// The configuration
        config: PathBuf,
        /// The place at which they have stopped
        place: u64,
    },
}

/// Why nothing is done.
#[derive(Debug, thiserror::Error)]
pub(crate) enum Refused {
    #[error("{0}")]
    No(String),
    /// It has been told.
    #[error("")]
    Told,
    #[error("{0}")]
    NoFile(String),
    #[error(transparent)]
    Config(#[from] ConfigFault),
    #[error("{0}")]
    NoPort(String),
    #[error("{0}")]
    Unanswered(String),
    #[error(transparent)]
    Unwritten(#[from] std::io::Error),
}

impl From<Unanswered> for Refused {
    fn from(why: Unanswered) -> Refused {
        Refused::Unanswered(why.to_string())
    }
}

impl Refused {
    fn status(&self) -> u8 {
        match self {
            Refused::No(_) | Refused::Told => 1,
            Refused::NoFile(_)
            | Refused::Config(ConfigFault::Unread { .. } | ConfigFault::Tls(TlsFault::Unread { .. })) => 66,
            Refused::Unanswered(_) => 69,
            Refused::Unwritten(_) => 74,
            Refused::Config(_) | Refused::NoPort(_) => 78,
        }
    }
}

fn name(text: &str) -> Result<Name, &'static str> {
    Name::new(text).ok_or("a name has 1 to 32 of a to z, 0 to 9 and -")
}

fn act(command: Command) -> Result<(), Refused> {
    match command {
        Command::Run { config } => serve::run(&Config::read(&config)?),
        Command::Begin { config, node, from } => operate::begin(&Config::read(&config)?, node, from.as_deref()),
        Command::Status { config } => operate::status(&Config::read(&config)?),
        Command::Export { config } => operate::exports(&Config::read(&config)?),
        Command::Audit { config } => operate::dump(&Config::read(&config)?),
        Command::Retire { config, node } => operate::retire(&Config::read(&config)?, &node),
        Command::Void { config, place } => operate::voids(&Config::read(&config)?, place),
    }
}

fn main() -> ExitCode {
    match act(Arguments::parse().command) {
        Ok(()) => ExitCode::SUCCESS,
        Err(why) => {
            if !matches!(why, Refused::Told) {
                eprintln!("histar-cluster: {why}");
            }
            ExitCode::from(why.status())
        }
    }
}
