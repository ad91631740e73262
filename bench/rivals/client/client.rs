//! Reads a path again and again, on a connection each time, by so many clients side by side, and prints how many whole
//! replies came a second.
//!
//!   client PORT PATH CLIENTS SECONDS
use std::io::{Read, Write};
use std::net::TcpStream;
use std::thread;
use std::time::{Duration, Instant};

fn get(port: u16, request: &[u8], reply: &mut Vec<u8>) -> std::io::Result<()> {
    let mut stream = TcpStream::connect(("127.0.0.1", port))?;
    stream.write_all(request)?;
    reply.clear();
    stream.read_to_end(reply)?;
    Ok(())
}

fn is_whole(reply: &[u8], len: usize) -> bool {
    reply.starts_with(b"HTTP/1.1 200") && (len == 0 || reply.len() == len)
}

fn run(port: u16, path: &str, until: Instant) -> u64 {
    let request = format!("GET {path} HTTP/1.1\r\nHost: localhost\r\nConnection: close\r\n\r\n").into_bytes();
    let (mut reply, mut len, mut count) = (Vec::new(), 0, 0);
    while Instant::now() < until {
        get(port, &request, &mut reply).expect("a reply");
        assert!(is_whole(&reply, len), "another reply");
        len = reply.len();
        count += 1;
    }
    count
}

fn main() {
    let words: Vec<String> = std::env::args().collect();
    let port = words[1].parse().unwrap();
    let clients: usize = words[3].parse().unwrap();
    let seconds: f64 = words[4].parse().unwrap();
    let until = Instant::now() + Duration::from_secs_f64(seconds);
    let running: Vec<_> = (0..clients)
        .map(|_| {
            let path = words[2].clone();
            thread::spawn(move || run(port, &path, until))
        })
        .collect();
    let count: u64 = running.into_iter().map(|it| it.join().unwrap()).sum();
    println!("{:.0}", count as f64 / seconds);
}
