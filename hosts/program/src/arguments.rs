//! The command line: what may be said, and the help for it, which fits a screen.

use clap::{Args, Parser, Subcommand};
use clap_complete::Shell;
use std::net::IpAddr;
use std::path::PathBuf;

/// Follow a recorded MoldUDP64 feed: what came, what was lost, what is missing
#[derive(Parser)]
#[command(
    name = "eiderwagon",
    version,
    term_width = 80,
    arg_required_else_help = true,
    disable_help_subcommand = true,
    after_help = "\
Exit status: 0 whole; 1 a gap stayed open, or numbers are missing; 2 bad input
or usage. The proved library decides what is delivered, asked for, missing or
refused; this program, which reads the files, isn't proved.

Example:
  eiderwagon import morning.pcap
  eiderwagon report morning.pcap --session READROOM01 --gaps"
)]
pub struct Arguments {
    #[command(subcommand)]
    pub command: Command,
}

#[derive(Subcommand)]
pub enum Command {
    /// Make a capture from pcap files, or list the sessions they have
    #[command(after_help = "\
Without --session the sessions are listed, and nothing is written. Without
--port and --group the datagrams under the session's name are taken; with
them, all that go there: the receiver refuses what isn't the session's.

Example:
  eiderwagon import morning.pcap
  eiderwagon import morning.pcap --session READROOM01 -o morning.capture")]
    Import(Import),
    /// Print the report of a capture or a pcap, its gaps, a picture
    #[command(after_help = "\
The options down to --limit are for a pcap, which needs --session.

Example:
  eiderwagon report captures/loss.capture --gaps --refusals
  eiderwagon report morning.pcap --session READROOM01 --picture morning.svg")]
    Report(Report),
    /// List the numbers that no datagram of a capture or a pcap carries
    #[command(after_help = "\
The options down to --limit are for a pcap, which needs --session.

Example:
  eiderwagon missing captures/gaps.capture
  eiderwagon missing morning.pcap --session READROOM01 --json")]
    Missing(Missing),
    /// Say what a refusal's number means, and what to do
    #[command(after_help = "\
Example:
  eiderwagon explain 17")]
    Explain(Explain),
    /// Print a completion script for a shell
    #[command(after_help = "\
Example, for this bash alone:
  source <(eiderwagon completions bash)")]
    Completions(Completions),
}

// Which datagrams of a pcap are taken, and the settings of the capture that they make.
#[derive(Args, Clone)]
pub struct Choice {
    /// The session's name, as `import` lists it
    #[arg(long, value_name = "NAME")]
    pub session: Option<String>,
    /// Take every datagram to this UDP port
    #[arg(long, value_name = "N", value_parser = clap::value_parser!(u16).range(1..))]
    pub port: Option<u16>,
    /// Take every datagram to this address
    #[arg(long, value_name = "ADDR")]
    pub group: Option<IpAddr>,
    /// The number of the first message expected [default: 1]
    #[arg(long, value_name = "N", value_parser = clap::value_parser!(u64).range(1..))]
    pub next: Option<u64>,
    /// The most messages asked for at once [default: 100]
    #[arg(long, value_name = "N", value_parser = clap::value_parser!(u16).range(1..=65534))]
    pub limit: Option<u16>,
}

#[derive(Args)]
pub struct Import {
    /// pcap or pcapng files, in order; - is standard input
    #[arg(required = true, value_name = "FILE")]
    pub files: Vec<PathBuf>,
    #[command(flatten)]
    pub choice: Choice,
    /// Where the capture goes; standard output without it
    #[arg(short, long = "output", value_name = "OUT")]
    pub out: Option<PathBuf>,
}

#[derive(Args)]
pub struct Report {
    /// A capture, or a pcap or pcapng file; - is standard input
    #[arg(value_name = "FILE")]
    pub file: PathBuf,
    #[command(flatten)]
    pub choice: Choice,
    /// List each gap, and when it opened and closed
    #[arg(long)]
    pub gaps: bool,
    /// List the refusals by number, with their grounds
    #[arg(long)]
    pub refusals: bool,
    /// Print JSON in place of lines
    #[arg(long)]
    pub json: bool,
    /// Draw the run as a picture
    #[arg(long, value_name = "OUT.svg")]
    pub picture: Option<PathBuf>,
}

#[derive(Args)]
pub struct Missing {
    /// A capture, or a pcap or pcapng file; - is standard input
    #[arg(value_name = "FILE")]
    pub file: PathBuf,
    #[command(flatten)]
    pub choice: Choice,
    /// Print JSON in place of lines
    #[arg(long)]
    pub json: bool,
}

#[derive(Args)]
pub struct Explain {
    /// The number, as in `report --refusals`; without it all are listed
    #[arg(value_name = "NUMBER")]
    pub number: Option<u32>,
}

#[derive(Args)]
pub struct Completions {
    /// The shell
    #[arg(value_enum, value_name = "SHELL")]
    pub shell: Shell,
}
