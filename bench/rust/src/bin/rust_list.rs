//! Writes a line for each network of a range, over the Rust crate `maxminddb`: the work of `mmdb_tool list`.
//!
//!     rust_list FILE RANGE [--empty] >lines

use ipnetwork::IpNetwork;
use maxminddb::{LookupResult, Reader, WithinOptions};
use std::io::{self, BufWriter, Write};
use std::process::ExitCode;

type Done = Result<(), Box<dyn std::error::Error>>;

/// The first address of a network in full, `/` and the prefix.
fn full_text(network: IpNetwork) -> String {
    match network {
        IpNetwork::V4(network) => format!("{}/{}", network.network(), network.prefix()),
        IpNetwork::V6(network) => {
            let [a, b, c, d, e, f, g, h] = network.network().segments();
            let prefix = network.prefix();
            format!("{a:04x}:{b:04x}:{c:04x}:{d:04x}:{e:04x}:{f:04x}:{g:04x}:{h:04x}/{prefix}")
        }
    }
}

fn put_line<W: Write>(found: &LookupResult<'_, Vec<u8>>, out: &mut W) -> Done {
    let network = full_text(found.network()?);
    match found.offset() {
        Some(offset) => writeln!(out, "{network} {offset}")?,
        None => writeln!(out, "{network} -")?,
    }
    Ok(())
}

fn list(file: &str, range: &str, options: WithinOptions) -> Done {
    let reader = Reader::open_readfile(file)?;
    let mut out = BufWriter::new(io::stdout().lock());
    for found in reader.within(range.parse()?, options)? {
        put_line(&found?, &mut out)?;
    }
    Ok(out.flush()?)
}

fn main() -> ExitCode {
    let words: Vec<String> = std::env::args().skip(1).collect();
    let words: Vec<&str> = words.iter().map(String::as_str).collect();
    let options = WithinOptions::default();
    let done = match words[..] {
        [file, range] => list(file, range, options),
        [file, range, "--empty"] => list(file, range, options.include_networks_without_data()),
        _ => Err("usage: rust_list FILE RANGE [--empty]".into()),
    };
    match done {
        Ok(()) => ExitCode::SUCCESS,
        Err(error) => {
            eprintln!("{error}");
            ExitCode::FAILURE
        }
    }
}
