// A server that echoes lines, and hangs up on clients that are silent for a while. The timers own the connections: one that
// is taken out of them, because its time is up or its client is gone, is closed as it is dropped.
//
// Six clients connect, of which three talk. The time-out is short here, so that the example ends soon.
//
//     cargo run --example idle_server
// SPDX-License-Identifier: MIT OR Apache-2.0
use std::collections::HashMap;
use std::error::Error;
use std::io::{BufRead, BufReader, Read, Write};
use std::net::{Shutdown, SocketAddr, TcpListener, TcpStream};
use std::sync::mpsc::{channel, Receiver, RecvTimeoutError, Sender};
use std::thread;
use std::time::Duration;
use timers::{Clock, Handle, Timers};

const IDLE: Duration = Duration::from_millis(200);

struct Connection {
    number: usize,
    stream: TcpStream,
}

impl Drop for Connection {
    fn drop(&mut self) {
        let _ = self.stream.shutdown(Shutdown::Both); // ends its reader, too
    }
}

enum Event {
    Connected(TcpStream),
    Heard(usize, String),
    Gone(usize),
}

/// Sends the lines of a connection, and its end.
fn read(number: usize, stream: TcpStream, events: &Sender<Event>) {
    for line in BufReader::new(stream).lines().map_while(Result::ok) {
        let _ = events.send(Event::Heard(number, line));
    }
    let _ = events.send(Event::Gone(number));
}

struct Server {
    clock: Clock,
    /// A connection stands in its idle timer.
    timers: Timers<Connection>,
    idle: HashMap<usize, Handle>,
    accepted: usize,
    sender: Sender<Event>,
}

impl Server {
    fn handle(&mut self, event: Event) -> Result<(), Box<dyn Error>> {
        match event {
            Event::Connected(stream) => {
                let (number, reader, sender) = (self.accepted, stream.try_clone()?, self.sender.clone());
                self.accepted += 1;
                thread::spawn(move || read(number, reader, &sender));
                let handle = self.timers.start_at(self.clock.after(IDLE), Connection { number, stream })?;
                self.idle.insert(number, handle);
            }
            // Its time may be up already: then the handle is gone.
            Event::Heard(number, line) => {
                if let Some(handle) = self.idle.get_mut(&number) {
                    *handle = self.timers.restart_at(*handle, self.clock.after(IDLE))?;
                    let connection = self.timers.get_mut(*handle).expect("it was restarted");
                    let _ = writeln!(connection.stream, "{line}");
                }
            }
            Event::Gone(number) => {
                let connection = self.idle.remove(&number).and_then(|handle| self.timers.stop(handle));
                drop(connection);
            }
        }
        Ok(())
    }

    /// Serves until no client is left.
    fn run(&mut self, events: &Receiver<Event>, clients: usize) -> Result<(), Box<dyn Error>> {
        while self.accepted < clients || !self.timers.is_empty() {
            // 1. Look at the clock, and sleep until a message or a time-out.
            let due = self.clock.now();
            let sleep = self.timers.wakeup().map_or(Duration::MAX, |tick| self.clock.until(tick));
            match events.recv_timeout(sleep) {
                Ok(event) => self.handle(event)?,
                Err(RecvTimeoutError::Timeout) => {}
                Err(RecvTimeoutError::Disconnected) => unreachable!("the server has a sender"),
            }
            // 2. Messages come before time-outs. So a server that was stopped for a while hangs up on nobody who talks.
            while let Ok(event) = events.try_recv() {
                self.handle(event)?;
            }
            // 3. Hang up on those whose time was up at 1.
            for timer in self.timers.take_due(due) {
                self.idle.remove(&timer.value.number);
                println!("client {} was silent for too long", timer.value.number);
            }
        }
        Ok(())
    }
}

/// Waits for the server to hang up, or talks and leaves.
fn client(mut stream: TcpStream, talks: bool) -> std::io::Result<()> {
    if !talks {
        return stream.read_to_end(&mut Vec::new()).map(|_| ());
    }
    let mut echoes = BufReader::new(stream.try_clone()?);
    for word in ["tea", "egg", "call"] {
        writeln!(stream, "{word}")?;
        echoes.read_line(&mut String::new())?;
    }
    Ok(())
}

fn connect(address: SocketAddr, clients: usize) -> std::io::Result<()> {
    for number in 0..clients {
        let stream = TcpStream::connect(address)?;
        thread::spawn(move || client(stream, number % 2 == 1));
    }
    Ok(())
}

fn main() -> Result<(), Box<dyn Error>> {
    let clients = 6;
    let listener = TcpListener::bind("127.0.0.1:0")?;
    let address = listener.local_addr()?;
    let (sender, events) = channel();
    let accepts = sender.clone();
    thread::spawn(move || {
        for stream in listener.incoming().map_while(Result::ok) {
            let _ = accepts.send(Event::Connected(stream));
        }
    });
    connect(address, clients)?;
    let (clock, timers) = (Clock::new(Duration::from_millis(1)), Timers::new()?);
    Server { clock, timers, idle: HashMap::new(), accepted: 0, sender }.run(&events, clients)
}
