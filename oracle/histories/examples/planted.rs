//! The oracle with a fault, for the tests of the comparisons. The name under which it runs says
//! which: `late` answers a fetch as if it came one index later, `marks` gives a Dependency on
//! the next index, `halts` ends badly at a finalise; any other name has none.

use driver::Oracle;
use histories::history::History;
use request::{line, Kind, Request, Response};
use std::{env, io, io::Read, path::Path, process};

fn main() -> io::Result<()> {
    let path = env::args().next().unwrap_or_default();
    let name = Path::new(&path).file_name().unwrap_or_default();
    let name = name.to_string_lossy();
    let mut input = Vec::new();
    io::stdin().read_to_end(&mut input)?;
    let history = History::cut(&input);
    let mut oracle = Oracle::new();
    for ticket in &history.tickets {
        println!("{}", turn(&mut oracle, ticket, &name));
    }
    if !history.tail.is_empty() {
        println!("no 2");
    }
    Ok(())
}

fn turn(oracle: &mut Oracle, ticket: &[u32], fault: &str) -> String {
    let answer = match (fault, Request::decode(ticket)) {
        ("late", Some(Request::At { kind: Kind::Fetch, key, index })) if index < 9 => {
            oracle.turn(&Request::fetch(key, index + 1).words())
        }
        ("halts", Some(Request::At { kind: Kind::Finalise, .. })) => process::exit(3),
        _ => oracle.turn(ticket),
    };
    match answer {
        Ok(Response::Dependency(index)) if fault == "marks" => {
            line(&Response::Dependency(index + 1).words())
        }
        Ok(response) => line(&response.words()),
        Err(number) => format!("no {number}"),
    }
}
