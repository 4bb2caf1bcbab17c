//! Peers of a server that answers a line for a line: they ask over some connections, each with some
//! requests in flight, and tell how many were answered a second, and how long a reply took.
//!
//!     peers ask ADDR CONNECTIONS FLIGHT COUNT LINE   asks LINE so often over all connections
//!     peers say ADDR LINE                            asks LINE once, and prints the reply
//!     peers echo ADDR                                serves connections that are sent back their lines
use std::collections::VecDeque;
use std::env;
use std::io::{BufRead, BufReader, Read, Write};
use std::net::{Shutdown, TcpListener, TcpStream};
use std::thread;
use std::time::{Duration, Instant};

/// A connection, once there is a server.
fn connect(address: &str) -> TcpStream {
    for _ in 0..500 {
        if let Ok(stream) = TcpStream::connect(address) {
            stream.set_nodelay(true).unwrap();
            return stream;
        }
        thread::sleep(Duration::from_millis(10));
    }
    panic!("no server at {address}");
}

/// Asks a line so often, with so many requests in flight; how long each reply took.
fn ask(address: &str, flight: usize, count: usize, line: &[u8]) -> Vec<Duration> {
    let mut stream = connect(address);
    let mut taken = Vec::with_capacity(count);
    let mut began = VecDeque::new();
    let mut buffer = vec![0; 1 << 16];
    let mut sent = 0;
    while taken.len() < count {
        let more = (flight - began.len()).min(count - sent);
        if more > 0 {
            let now = Instant::now();
            stream.write_all(&line.repeat(more)).unwrap();
            began.extend(std::iter::repeat(now).take(more));
            sent += more;
        }
        let read = stream.read(&mut buffer).unwrap();
        assert!(read > 0, "the server closed");
        let now = Instant::now();
        for _ in buffer[..read].iter().filter(|byte| **byte == b'\n') {
            taken.push(now - began.pop_front().unwrap());
        }
    }
    stream.shutdown(Shutdown::Write).unwrap();
    taken
}

/// Asks over all connections, and prints a row.
fn measure(address: &str, connections: usize, flight: usize, count: usize, line: &[u8]) {
    let each = count / connections;
    let began = Instant::now();
    let threads: Vec<_> = (0..connections)
        .map(|_| {
            let (address, line) = (address.to_owned(), line.to_owned());
            thread::spawn(move || ask(&address, flight, each, &line))
        })
        .collect();
    let mut taken: Vec<_> = threads.into_iter().flat_map(|one| one.join().unwrap()).collect();
    let all = began.elapsed();
    taken.sort();
    let at = |part: f64| taken[((taken.len() - 1) as f64 * part) as usize].as_nanos() as f64 / 1e3;
    println!(
        "{connections:>11} {flight:>6} {:>12.0} {:>9.1} {:>9.1}",
        taken.len() as f64 / all.as_secs_f64(),
        at(0.5),
        at(0.99)
    );
}

/// Sends back to each connection what it sends, line by line, in a thread of its own.
fn echo(address: &str) {
    for stream in TcpListener::bind(address).unwrap().incoming() {
        let mut stream = stream.unwrap();
        stream.set_nodelay(true).unwrap();
        thread::spawn(move || {
            let mut lines = BufReader::new(stream.try_clone().unwrap());
            let mut line = Vec::new();
            while matches!(lines.read_until(b'\n', &mut line), Ok(count) if count > 0) {
                if stream.write_all(&line).is_err() {
                    return;
                }
                line.clear();
            }
        });
    }
}

fn main() {
    let words: Vec<_> = env::args().skip(1).collect();
    let words: Vec<_> = words.iter().map(String::as_str).collect();
    match words.as_slice() {
        ["echo", address] => echo(address),
        ["say", address, line] => {
            let mut stream = connect(address);
            stream.write_all(format!("{line}\n").as_bytes()).unwrap();
            stream.shutdown(Shutdown::Write).unwrap();
            let mut reply = String::new();
            stream.read_to_string(&mut reply).unwrap();
            print!("{reply}");
        }
        ["ask", address, connections, flight, count, line] => measure(
            address,
            connections.parse().unwrap(),
            flight.parse().unwrap(),
            count.parse().unwrap(),
            format!("{line}\n").as_bytes(),
        ),
        _ => panic!("peers ask ADDR CONNECTIONS FLIGHT COUNT LINE | say ADDR LINE | echo ADDR"),
    }
}
