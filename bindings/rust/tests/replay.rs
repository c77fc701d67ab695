//! The calls of traces that tests/driver wrote: each has the answers that stand there, which the driver has compared with a
//! model. `TIMERS_TRACES` names a folder with `timers.N` and `desk.N` for each table.
// SPDX-License-Identifier: MIT OR Apache-2.0
use std::collections::HashMap;
use timers::{Error, Handle, Table, Tick, Ticks, Timer, Timers};

/// The tables, each with its last tick.
const TABLES: &[(Table, Tick)] = &[
    // made by tools/facts: tables in tests of Rust
    (Table::Wide, timers::LAST),
    (Table::Smooth, timers::LAST),
    (Table::Small, timers::LAST_OF_SMALL),
];

struct Replay {
    timers: Timers<u64>,
    handles: HashMap<u64, Handle>,
}

fn shown(timer: Timer<u64>) -> [u64; 3] {
    [timer.deadline.0, timer.serial, timer.value]
}

fn taken(timer: Option<Timer<u64>>) -> Vec<u64> {
    timer.map_or(vec![0], |timer| [&[1], &shown(timer)[..]].concat())
}

fn listed(timers: Vec<[u64; 3]>) -> Vec<u64> {
    [vec![3 * timers.len() as u64], timers.concat()].concat()
}

fn known(tick: Option<Tick>) -> Vec<u64> {
    vec![tick.map_or(u64::MAX, |tick| tick.0)]
}

fn numbers(words: &str) -> Vec<u64> {
    words.split_whitespace().map(|word| word.parse().unwrap()).collect()
}

/// Makes the calls of a trace. Each has the answers that stand there, as many as it has in Rust.
fn play(path: &str, mut call: impl FnMut(&str, &[u64]) -> Vec<u64>) {
    let trace = std::fs::read_to_string(path).unwrap();
    for line in trace.lines() {
        let (asked, answers) = line.strip_prefix("timers_").unwrap().split_once(" =").unwrap();
        let (name, given) = asked.split_once(' ').unwrap_or((asked, ""));
        let mut wanted = numbers(answers);
        if name == "line_receive" {
            wanted.remove(4); // the place of a handle, which is private: requests that have the handle show it
        }
        let got = call(name, &numbers(given));
        assert_eq!(got, wanted[..got.len()], "{line}");
    }
    assert!(trace.lines().count() > 1000);
}

fn number_of<E: Copy + PartialEq + std::fmt::Debug>(error: E, statuses: &[(E, u64)]) -> Vec<u64> {
    let found = statuses.iter().find(|(known, _)| *known == error);
    vec![found.unwrap_or_else(|| panic!("{error:?}")).1]
}

impl Replay {
    fn new(table: Table, first_tick: u64) -> Result<Replay, Error> {
        let timers = Timers::with_table(table, Tick(first_tick))?;
        Ok(Replay { timers, handles: HashMap::from([(0, Handle::default())]) })
    }

    fn started(&mut self, handle: Handle) -> Vec<u64> {
        self.handles.insert(handle.serial(), handle);
        vec![0, handle.serial()]
    }

    /// A timer that was restarted has its value, until it gets this one.
    fn restarted(&mut self, old: Option<u64>, made: Handle, value: u64) -> Vec<u64> {
        assert_eq!(self.timers.get(made).copied(), old);
        *self.timers.get_mut(made).unwrap() = value;
        self.started(made)
    }

    fn set_at(&mut self, mut handle: Handle, tick: u64, value: u64) -> Result<Vec<u64>, Error> {
        let old = self.timers.get(handle).copied();
        assert_eq!(self.timers.set_at(&mut handle, Tick(tick), value)?, old);
        Ok(self.started(handle))
    }

    fn visit(&self) -> Vec<u64> {
        let show = |(handle, timer): (Handle, Timer<&u64>)| {
            assert_eq!(timer.serial, handle.serial());
            [timer.deadline.0, timer.serial, *timer.value]
        };
        let mut found: Vec<_> = self.timers.iter().map(show).collect();
        found.sort();
        assert_eq!((self.timers.len(), self.timers.is_empty()), (found.len(), found.is_empty()));
        listed(found)
    }

    fn clear(&mut self) -> Vec<u64> {
        let mut held: Vec<u64> = self.timers.iter().map(|(_, timer)| *timer.value).collect();
        let mut drained: Vec<u64> = self.timers.drain().collect();
        held.sort();
        drained.sort();
        assert_eq!(held, drained);
        vec![self.timers.len() as u64]
    }

    /// The answers that a call has in Rust.
    fn call(&mut self, name: &str, given: &[u64]) -> Result<Vec<u64>, Error> {
        let handle = given.first().and_then(|serial| self.handles.get(serial)).copied().unwrap_or_default();
        let old = self.timers.get(handle).copied();
        let now = self.timers.now();
        Ok(match (name, given) {
            ("clear", []) => self.clear(),
            ("reserve", &[most]) => self.timers.reserve(most as usize).map(|_| vec![0])?,
            ("start", &[interval, value]) => self.timers.start(Ticks(interval), value).map(|made| self.started(made))?,
            ("start_at", &[tick, value]) => self.timers.start_at(Tick(tick), value).map(|made| self.started(made))?,
            ("restart", &[_, interval, value]) => {
                self.timers.restart(handle, Ticks(interval)).map(|made| self.restarted(old, made, value))?
            }
            ("restart_at", &[_, tick, value]) => {
                self.timers.restart_at(handle, Tick(tick)).map(|made| self.restarted(old, made, value))?
            }
            ("set_at" | "set_at_held", &[_, tick, value]) => self.set_at(handle, tick, value)?,
            ("stop", [_]) => vec![0, self.timers.stop(handle).ok_or(Error::NotPending)?],
            ("look", &[serial]) => {
                vec![0, self.timers.deadline(handle).ok_or(Error::NotPending)?.0, serial, old.unwrap()]
            }
            ("visit", []) => self.visit(),
            ("tick", []) => vec![self.timers.advance(Ticks(1))?.0 - 1],
            ("advance", &[most]) => vec![0, self.timers.advance(Ticks(most))?.0],
            ("advance_to", &[tick]) => self.timers.advance_to(Tick(tick)).map(|_| vec![0])?,
            ("catch_up", &[tick]) if tick % 2 == 0 => listed(self.timers.take_due(Tick(tick)).map(shown).collect()),
            ("catch_up", &[tick]) => listed(std::iter::from_fn(|| self.timers.take(Tick(tick))).map(shown).collect()),
            ("take", &[tick]) => taken(self.timers.take(Tick(tick))),
            ("expire", []) => taken(self.timers.expire()),
            ("expire_batch", &[room]) => listed((0..room).map_while(|_| self.timers.expire()).map(shown).collect()),
            ("has_due", []) => vec![self.timers.has_due().into()],
            ("now", []) => vec![now.0],
            ("len", []) => vec![self.timers.iter().filter(|(_, timer)| timer.deadline > now).count() as u64],
            ("wakeup", []) => known(self.timers.wakeup()),
            ("counts", []) => vec![0, self.timers.counts().starts, self.timers.counts().moves],
            ("free", []) => vec![],
            call => panic!("{call:?}"),
        })
    }
}

fn status_of(error: Error) -> Vec<u64> {
    let statuses =
        [(Error::Due, 5), (Error::NotPending, 6), (Error::ZeroInterval, 7), (Error::TooLate, 8), (Error::ClockEnd, 10)];
    number_of(error, &statuses)
}

fn traces(name: &str) -> impl Iterator<Item = (Table, String)> + '_ {
    let folder = std::env::var("TIMERS_TRACES").expect("TIMERS_TRACES");
    TABLES.iter().map(move |&(table, _)| (table, format!("{folder}/{name}.{}", table as u32)))
}

#[test]
#[ignore = "TIMERS_TRACES has to name a folder of traces"]
fn the_calls_of_traces_have_their_answers() {
    for (table, path) in traces("timers") {
        let mut replay = Replay::new(table, 0).unwrap();
        play(&path, |name, given| match name {
            "new" => Replay::new(table, given[1]).map_or_else(status_of, |made| {
                replay = made;
                vec![0]
            }),
            _ => replay.call(name, given).unwrap_or_else(status_of),
        });
    }
}

/// A desk and its clients' ends. Rust has no end that holds no line: of what it is asked there is no answer.
#[cfg(feature = "std")]
mod desk {
    use super::{known, number_of, play, traces};
    use std::collections::HashMap;
    use timers::desk::{Config, Desk, Error, Handle, Line, Timer, Word};
    use timers::{Table, Tick, Ticks};

    struct Replay {
        desk: Desk,
        lines: Vec<Option<Line>>,
        handles: HashMap<u64, Handle>,
    }

    fn status_of(error: Error) -> Vec<u64> {
        let statuses = [
            (Error::NotPending, 6),
            (Error::ZeroInterval, 7),
            (Error::TooLate, 8),
            (Error::ClockEnd, 10),
            (Error::Closed, 11),
            (Error::Capacity, 12),
            (Error::LineFull, 17),
            (Error::Finished, 18),
            (Error::OutOfRange, 19),
            (Error::NoRoom, 21),
            (Error::NotFinished, 23),
            (Error::Left, 24),
            (Error::NotFreed, 25),
        ];
        number_of(error, &statuses)
    }

    fn served(has_request: bool) -> Vec<u64> {
        vec![if has_request { 0 } else { 20 }]
    }

    /// Of a word: its kind, reason, number, serial, deadline, action and old serial.
    fn shown(word: Word) -> [u64; 7] {
        let of_timer = |kind, Timer { number, serial, deadline, action }| [kind, 0, number, serial, deadline.0, action, 0];
        match word {
            Word::Started { number, handle, deadline, action } => [1, 0, number, handle.serial(), deadline.0, action, 0],
            Word::Restarted { number, handle, deadline, action, old } => [2, 0, number, handle.serial(), deadline.0, action, old],
            Word::Stopped { number, serial } => [3, 0, number, serial, 0, 0, 0],
            Word::Refused { number, action, reason } => [4, status_of(reason)[0], number, 0, 0, action, 0],
            Word::NotTaken { number, action, reason } => [5, status_of(reason)[0], number, 0, 0, action, 0],
            Word::Expired(timer) => of_timer(6, timer),
            Word::Returned(timer) => of_timer(7, timer),
            word => panic!("{word:?}"),
        }
    }

    impl Replay {
        fn new(table: Table, given: &[u64]) -> Result<Replay, Error> {
            let &[clients, _, first_tick, capacity, room, line, _] = given else { panic!("{given:?}") };
            let mut config = Config::new(capacity, room - line - 1, line);
            (config.first_tick, config.table) = (Tick(first_tick), table);
            let (desk, lines) = Desk::new(clients as usize, config)?;
            let lines = lines.into_iter().map(Some).collect();
            Ok(Replay { desk, lines, handles: HashMap::from([(0, Handle::default())]) })
        }

        fn open(&mut self, client: usize, room: usize) -> Result<Vec<u64>, Error> {
            let opened = self.desk.open(client, room);
            if self.lines[client].is_some() {
                assert!(matches!(opened, Err(Error::NotFreed | Error::OutOfRange))); // C is given the line that is held
                return Ok(vec![]);
            }
            self.lines[client] = Some(opened?);
            Ok(vec![0])
        }

        fn receive(&mut self, client: usize) -> Vec<u64> {
            let Some(word) = self.lines[client].as_mut().unwrap().receive() else { return vec![0] };
            if let Word::Started { handle, .. } | Word::Restarted { handle, .. } = word {
                self.handles.insert(handle.serial(), handle);
            }
            [&[1], &shown(word)[..]].concat()
        }

        /// The answers of a call of a line that is held.
        fn call_line(&mut self, name: &str, client: usize, given: &[u64]) -> Result<Vec<u64>, Error> {
            if name == "line_receive" {
                return Ok(self.receive(client));
            }
            let line = self.lines[client].as_mut().unwrap();
            assert_eq!(line.client(), client);
            let sent = match (name, given) {
                ("line_start", &[interval, action]) => line.start(Ticks(interval), action),
                ("line_start_at", &[tick, action]) => line.start_at(Tick(tick), action),
                ("line_stop", [_, serial]) => line.stop(self.handles[serial]),
                ("line_restart", &[_, serial, interval, action]) => line.restart(self.handles[&serial], Ticks(interval), action),
                ("line_restart_at", &[_, serial, tick, action]) => line.restart_at(self.handles[&serial], Tick(tick), action),
                ("desk_end", []) => self.desk.end(client, line),
                ("line_finish", []) => return line.finish().map(|_| vec![0]),
                ("line_ended", []) => return Ok(vec![line.ended().into()]),
                ("line_abandoned", []) => return Ok(vec![line.abandoned().into()]),
                call => panic!("{call:?}"),
            };
            sent.map(|number| vec![0, number])
        }

        /// The answers that a call has in Rust.
        fn call(&mut self, name: &str, given: &[u64]) -> Result<Vec<u64>, Error> {
            let client = given.first().map_or(0, |&client| client as usize);
            let has_line = self.lines.get(client).is_some_and(Option::is_some);
            Ok(match (name, given) {
                ("word" | "word_reason" | "desk_free", []) => vec![],
                ("line_free", _) => {
                    self.lines.get_mut(client).and_then(Option::take);
                    vec![]
                }
                ("desk_end", _) if has_line => self.call_line(name, client, &given[1..])?,
                (name, _) if name.starts_with("line_") && has_line => self.call_line(name, client, &given[1..])?,
                (name, _) if name.starts_with("line_") || name == "desk_end" => vec![],
                ("desk_open", &[_, room]) => self.open(client, room as usize)?,
                ("desk_serve", [_]) => served(self.desk.serve(client)?),
                ("desk_serve_all", &[most]) => served(self.desk.serve_all(most)?),
                ("desk_flush", [_]) => vec![self.desk.flush(client) as u64],
                ("desk_flush_all", []) => vec![self.desk.flush_all().into()],
                ("desk_tick", []) => vec![self.desk.advance(Ticks(1))?.0 - 1],
                ("desk_advance", &[most]) => vec![0, self.desk.advance(Ticks(most))?.0],
                ("desk_close", []) => vec![0, self.desk.close()?],
                ("desk_stop_pending", [_]) => vec![0, self.desk.stop_pending(client)?],
                ("desk_reserve", []) => self.desk.reserve().map(|_| vec![0])?,
                ("desk_now", [_]) => vec![self.desk.now().0],
                ("desk_len", [_]) => vec![self.desk.pending() as u64],
                ("desk_pending", [_]) => vec![self.desk.pending_of(client) as u64],
                ("desk_outbox", [_]) => vec![self.desk.outbox(client) as u64],
                ("desk_wakeup", [_]) => known(self.desk.wakeup()),
                ("desk_next", [_]) => known(self.desk.next_deadline()),
                ("desk_line_freed", [_]) => vec![self.desk.line_freed(client).into()],
                call => panic!("{call:?}"),
            })
        }
    }

    #[test]
    #[ignore = "TIMERS_TRACES has to name a folder of traces"]
    fn the_calls_of_traces_have_their_answers() {
        for (table, path) in traces("desk") {
            let mut replay = None;
            play(&path, |name, given| match (name, &mut replay) {
                ("desk_new", replay) => Replay::new(table, given).map_or_else(status_of, |made| {
                    *replay = Some(made);
                    vec![0]
                }),
                (_, Some(replay)) => replay.call(name, given).unwrap_or_else(status_of),
                (_, None) => vec![], // C may free what holds nothing
            });
        }
    }
}
