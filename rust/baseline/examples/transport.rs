//! `transport sections PID` takes a transport stream from standard input, and writes the whole sections of that PID to standard output and
//! what became of the packets to standard error; `transport packets PID` takes sections, and writes a transport stream. Over the
//! baseline, so that `tools/transport.py` can be tried without the programs that it is for.

use std::io::{self, Read, Write};
use std::process::ExitCode;

use baseline::transport::{write_packets, Transport, MOST_PACKETS, PACKET};

fn main() -> ExitCode {
    let words: Vec<String> = std::env::args().skip(1).collect();
    let done = match &words[..] {
        [_, pid] => pid.parse().map_err(|_| "a PID is a number".to_string()),
        _ => Err("two words are needed".to_string()),
    }
    .and_then(|pid| match words[0].as_str() {
        "sections" => sections(pid),
        "packets" => packets(pid),
        _ => Err("no such word".to_string()),
    });
    match done {
        Ok(()) => ExitCode::SUCCESS,
        Err(told) => {
            eprintln!("{told}; usage: transport sections|packets PID");
            ExitCode::FAILURE
        }
    }
}

/// All of standard input.
fn input() -> Result<Vec<u8>, String> {
    let mut bytes = vec![];
    io::stdin()
        .read_to_end(&mut bytes)
        .map_err(|error| error.to_string())?;
    Ok(bytes)
}

fn print(bytes: &[u8]) -> Result<(), String> {
    io::stdout()
        .write_all(bytes)
        .map_err(|error| error.to_string())
}

fn sections(pid: u16) -> Result<(), String> {
    let mut out = vec![];
    let gathered = Transport::new(pid)
        .gather(&input()?, &mut out, usize::MAX)
        .map_err(|number| format!("refused,{number}"))?;
    print(&out)?;
    let [r40, r41, r42, r43] = gathered.refused;
    eprintln!(
        "taken,{},repeated,{},broken,{},refused40,{r40},refused41,{r41},refused42,{r42},refused43,{r43}",
        gathered.taken, gathered.repeated, gathered.broken
    );
    Ok(())
}

fn packets(pid: u16) -> Result<(), String> {
    let (bytes, mut rest, mut count) = (input()?, 0, 0);
    let mut out = [0; MOST_PACKETS * PACKET];
    while let [_, high, low, ..] = bytes[rest..] {
        let end = rest + 3 + usize::from(high & 0x0F) * 256 + usize::from(low);
        let section = bytes.get(rest..end).ok_or("a section is cut")?;
        let written = write_packets(pid, (count % 16) as u8, section, &mut out)
            .map_err(|number| format!("refused,{number}"))?;
        print(&out[..written * PACKET])?;
        count += written;
        rest = end;
    }
    Ok(())
}
