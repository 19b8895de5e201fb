//! Sessions with the crate, their turns as `turns` prints them.

use std::collections::VecDeque;

use ritsghule::{Scan, Turn};

use super::{job, Record};

/// A turn as a line.
pub fn shown(turn: Turn) -> String {
    match turn {
        Turn::Read { read, segment } => format!("read {read} {segment}"),
        Turn::Output(output) => {
            let columns = output
                .columns()
                .iter()
                .map(|column| format!(" {}:{}", column.segment, column.first));
            format!(
                "out {} {}{}",
                output.split,
                output.rows,
                columns.collect::<String>()
            )
        }
        Turn::Waiting => "wait".to_string(),
        Turn::Done => "done".to_string(),
    }
}

pub enum Call {
    Step,
    Deliver(u32, u32),
}

/// The answers to the calls of a session, as `turns` prints them.
pub fn answers(records: &[Record], calls: &[Call]) -> Vec<String> {
    let mut scan = Scan::open(&job(records)).expect("an accepted job");
    let answer = |call: &Call| match *call {
        Call::Step => scan.step(),
        Call::Deliver(read, rows) => scan.deliver(read, rows),
    };
    calls
        .iter()
        .map(answer)
        .map(|turn| turn.map_or_else(|refusal| format!("no {}", refusal.number()), shown))
        .collect()
}

/// The turns up to Done, with the first read in flight delivered at each wait.
pub fn served(records: &[Record]) -> Vec<String> {
    let mut lines = Vec::new();
    serve(records, |turn, _| lines.push(shown(turn)));
    lines
}

/// The same, each turn told with the state that it leaves.
pub fn serve(records: &[Record], mut tell: impl FnMut(Turn, &[u8])) {
    let rows = |segment| {
        records
            .iter()
            .find(|(mark, fields)| *mark == "SG" && fields[0] == segment)
            .expect("a segment of the job")
            .1[1]
    };
    let mut scan = Scan::open(&job(records)).expect("an accepted job");
    let mut in_flight = VecDeque::new();
    let mut turn = scan.step().expect("a step of an accepted job");
    while turn != Turn::Done {
        tell(turn, scan.state());
        if let Turn::Read { read, segment } = turn {
            in_flight.push_back((read, rows(segment)));
        }
        let answer = if turn == Turn::Waiting {
            let (read, rows) = in_flight.pop_front().expect("a read in flight");
            scan.deliver(read, rows)
        } else {
            scan.step()
        };
        turn = answer.expect("a call of an accepted job");
    }
    tell(turn, scan.state());
}
