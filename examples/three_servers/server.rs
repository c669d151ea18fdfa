//! A server that saves orders on a disk that fails: the point `disk`. Each of its processes is a
//! node of one cluster, as its environment says, so an operator can set `disk` at any of them.
//!
//!     order_server PORT [WORKERS]
//!
//! `POST /orders` at this port saves an order: 200 and `saved`, or 503 and `lost: disk full`. With
//! WORKERS, as many threads save orders without a client, until a line arrives on standard input.
//! The server ends when its standard input does. It first prints a line `served at <address>`, and
//! then `injected <reason>` for each injected failure, before the order is lost.

use failreg::fail_point;
use std::io::{BufRead, BufReader, Read, Write};
use std::net::{Ipv4Addr, TcpListener, TcpStream};
use std::sync::atomic::{AtomicBool, Ordering};
use std::time::Duration;

/// Whether the workers stop. It orders no memory access.
static IS_RESTING: AtomicBool = AtomicBool::new(false);

/// These lines count a process's failures. A killed process may lose its last one, and adds none.
fn injected(reason: Option<String>) -> Result<(), String> {
    let reason = reason.unwrap_or("disk".into());
    println!("injected {reason}");
    Err(reason)
}

fn write_to_disk() -> Result<(), String> {
    fail_point!("disk", injected);
    Ok(())
}

fn reply(stream: &mut TcpStream, status: &str, body: &str) -> std::io::Result<()> {
    let length = body.len();
    let head =
        format!("HTTP/1.1 {status}\r\nContent-Length: {length}\r\nConnection: close\r\n\r\n");
    stream.write_all((head + body).as_bytes())
}

fn serve_order(mut stream: TcpStream) -> std::io::Result<()> {
    stream.set_read_timeout(Some(Duration::from_secs(2)))?;
    let mut lines = BufReader::new(&stream).take(8_192).lines();
    let request = lines.next().transpose()?.unwrap_or_default();
    // The rest of the head, which ends with an empty line.
    for line in lines {
        if line?.is_empty() {
            break;
        }
    }
    if !request.starts_with("POST /orders ") {
        return reply(&mut stream, "404 Not Found", "post to /orders");
    }
    match write_to_disk() {
        Ok(()) => reply(&mut stream, "200 OK", "saved"),
        Err(reason) => reply(
            &mut stream,
            "503 Service Unavailable",
            &format!("lost: {reason}"),
        ),
    }
}

fn work() {
    while !IS_RESTING.load(Ordering::Relaxed) {
        // The order is lost, and the next one follows.
        _ = write_to_disk();
        std::thread::sleep(Duration::from_millis(1));
    }
}

fn main() -> Result<(), Box<dyn std::error::Error>> {
    let words: Vec<String> = std::env::args().skip(1).collect();
    let port = words
        .first()
        .ok_or("order_server PORT [WORKERS]")?
        .parse()?;
    let workers = words.get(1).map_or(Ok(0), |count| count.parse::<u32>())?;
    let failpoints = failreg::from_env()?;
    let listener = TcpListener::bind((Ipv4Addr::LOCALHOST, port))?;
    std::thread::spawn(move || {
        for stream in listener.incoming().flatten() {
            // A client that is gone doesn't affect the others.
            std::thread::spawn(move || serve_order(stream));
        }
    });
    (0..workers).for_each(|_| drop(std::thread::spawn(work)));
    if let Some(serving) = failpoints.serving() {
        println!("served at {}", serving.addr());
    }
    for line in std::io::stdin().lines() {
        line?;
        IS_RESTING.store(true, Ordering::Relaxed);
    }
    Ok(())
}
