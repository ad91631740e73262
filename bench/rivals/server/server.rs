//! The least server: a connection at a time, one read, one write of the same bytes whatever was asked, and the end.
//!
//!   server PORT FILE
use std::io::{Read, Write};
use std::net::{Shutdown, TcpListener};

fn main() {
    let words: Vec<String> = std::env::args().collect();
    let body = std::fs::read(&words[2]).unwrap();
    let mut reply = format!(
        "HTTP/1.1 200 OK\r\nContent-Type: application/vnd.apple.mpegurl\r\nContent-Length: {}\r\nConnection: close\r\n\r\n",
        body.len()
    )
    .into_bytes();
    reply.extend(body);
    let listener = TcpListener::bind(("127.0.0.1", words[1].parse().unwrap())).unwrap();
    let mut request = [0; 8192];
    for stream in listener.incoming() {
        let mut stream = stream.unwrap();
        if stream.read(&mut request).is_ok() && stream.write_all(&reply).is_ok() {
            let _ = stream.shutdown(Shutdown::Write);
            let _ = stream.read(&mut request);
        }
    }
}
