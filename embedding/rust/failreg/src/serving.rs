//! A registry that is served over HTTP, in threads of its own.

use crate::error::{Error, ErrorKind};
use crate::heads::{BAD_DIGEST, Fault, Head};
use crate::http::{Connection, HeadRoom};
use crate::key::Key;
use crate::page::PAGE;
use crate::registry::Registry;
use crate::told::Reply;
use crate::unsent::Sending;
use std::borrow::Cow;
use std::collections::HashMap;
use std::fmt;
use std::io;
use std::net::{Shutdown, SocketAddr, TcpListener, TcpStream, ToSocketAddrs};
use std::ops::Deref;
use std::panic::{AssertUnwindSafe, catch_unwind};
use std::sync::{Arc, Condvar, Mutex, MutexGuard};
use std::thread::{self, JoinHandle, Scope};
use std::time::{Duration, Instant};

/// How many clients are served at once; the next one waits until one of them is gone.
const CLIENTS: usize = 64;

/// How many of them may have a longer body than this, in bytes, which limits memory.
const LONG_BODIES: usize = 4;
const LONG: usize = 65_536;

/// How many connections may wait for a place; the system may allow fewer.
const BACKLOG: i32 = 4_096;

/// More bytes than the standard library takes to start a thread, without its stack.
const ROOM_FOR_THREAD: usize = 16_384;

/// How long current clients have when the service ends.
const LAST_TIME: Duration = Duration::from_secs(2);

/// How long to pause if the system has no socket for a client, or for the end of the service.
const REST: Duration = Duration::from_millis(10);

/// A service: its registry, address and clients.
struct Service {
    addr: SocketAddr,
    /// The key that a client must present, if there is one.
    key: Option<Key>,
    /// Guards the clients, and the state of the service.
    clients: Mutex<Clients>,
    /// Notified of each change of what the lock guards.
    changed: Condvar,
}

/// What the lock of a service guards.
#[derive(Default)]
struct Clients {
    /// Their connections, by a unique number.
    streams: HashMap<u64, Arc<TcpStream>>,
    next: u64,
    /// How many of them have a long body.
    long_bodies: usize,
    /// Whether no client is accepted any more.
    is_over: bool,
    /// Whether the service doesn't wait for clients any more.
    is_cut: bool,
    /// Whether the accepting thread has ended.
    is_deaf: bool,
}

impl Service {
    fn lock(&self) -> MutexGuard<'_, Clients> {
        // Every holder leaves the clients consistent, even after a panic.
        self.clients
            .lock()
            .unwrap_or_else(|poisoned| poisoned.into_inner())
    }

    fn change(&self, make: impl FnOnce(&mut Clients)) {
        make(&mut self.lock());
        self.changed.notify_all();
    }

    // Waits until the condition is false, or the time is over.
    fn wait_while(
        &self,
        time: Duration,
        holds: impl Fn(&Clients) -> bool,
    ) -> MutexGuard<'_, Clients> {
        let waited = self
            .changed
            .wait_timeout_while(self.lock(), time, |clients| holds(clients));
        waited.unwrap_or_else(|poisoned| poisoned.into_inner()).0
    }

    // Waits for a place. Returns whether the service continues.
    fn has_place(&self) -> bool {
        let waited = self.changed.wait_while(self.lock(), |clients| {
            clients.streams.len() >= CLIENTS && !clients.is_over
        });
        !waited
            .unwrap_or_else(|poisoned| poisoned.into_inner())
            .is_over
    }

    // Accepts a client, if the service continues.
    fn enter(&self, stream: TcpStream) -> Option<Client<'_>> {
        let stream = Arc::new(stream);
        let mut clients = self.lock();
        if clients.is_over {
            return None;
        }
        let number = clients.next;
        clients.next += 1;
        clients.streams.insert(number, stream.clone());
        Some(Client {
            service: self,
            number,
            stream,
        })
    }
}

/// A client that is being served; its place is free again when this is dropped.
struct Client<'a> {
    service: &'a Service,
    number: u64,
    stream: Arc<TcpStream>,
}

impl Drop for Client<'_> {
    fn drop(&mut self) {
        self.service.change(|clients| {
            clients.streams.remove(&self.number);
        });
    }
}

/// One of the places for long bodies, until this is dropped.
struct LongBody<'a> {
    service: &'a Service,
}

impl Drop for LongBody<'_> {
    fn drop(&mut self) {
        self.service.change(|clients| clients.long_bodies -= 1);
    }
}

impl<'a> Client<'a> {
    fn serve(&self, registry: &Registry) -> io::Result<()> {
        let mut room = HeadRoom::new();
        let mut connection = Connection::new(&self.stream);
        let key = self.service.key.as_ref();
        let read = connection
            .read_head(&mut room, self.service.addr, key)
            .and_then(|head| Ok((self.answered(&mut connection, &head, registry)?, head)));
        let fault = match read {
            Ok((reply, head)) => {
                connection.write(&head, reply.status, &reply.body)?;
                // The points that the request set act from now on.
                drop(reply);
                if connection.has_more() {
                    connection.drain();
                }
                return Ok(());
            }
            Err(fault) => fault,
        };
        match fault {
            Fault::Reply(status, text) => connection.write_fault(status, text, None)?,
            Fault::OtherMethod(methods) => {
                connection.write_fault(405, "bad method", Some(methods))?;
            }
            Fault::Gone => return Ok(()),
        }
        connection.drain();
        Ok(())
    }

    // Reads the body of a request, and carries it out.
    fn answered<'r>(
        &self,
        connection: &mut Connection<'_>,
        head: &Head<'_>,
        registry: &'r Registry,
    ) -> Result<Answer<'r>, Fault> {
        let _place = match head.may_exceed(LONG) {
            true => Some(self.long_body(connection.end()).ok_or(Fault::Gone)?),
            false => None,
        };
        let body = connection.read_body(head)?;
        if head.is_message() && !head.is_intact(self.service.key.as_ref(), &body) {
            return Err(BAD_DIGEST);
        }
        Ok(page_answer(head).unwrap_or_else(|| answered(registry, head, &body)))
    }

    // Waits for a place for a long body.
    fn long_body(&self, end: Instant) -> Option<LongBody<'a>> {
        let left = end.saturating_duration_since(Instant::now());
        let mut clients = self.service.wait_while(left, |clients| {
            clients.long_bodies >= LONG_BODIES && !clients.is_cut
        });
        let has_place = clients.long_bodies < LONG_BODIES;
        has_place.then(|| {
            clients.long_bodies += 1;
            LongBody {
                service: self.service,
            }
        })
    }
}

/// A status, and a body that may be one of the program's own.
struct Answer<'r> {
    status: u16,
    body: Cow<'static, [u8]>,
    /// Dropped once the response is sent, if the request changed configurations.
    _sending: Option<Sending<'r>>,
}

// Returns the response with the browser UI, which needs nothing of the node.
fn page_answer(head: &Head<'_>) -> Option<Answer<'static>> {
    let (status, text) = match (head.path, head.method) {
        ("/", "GET") => (200, PAGE),
        ("/", _) => (405, "bad method"),
        _ => return None,
    };
    let body = Cow::Borrowed(text.as_bytes());
    Some(Answer {
        status,
        body,
        _sending: None,
    })
}

fn answered<'r>(registry: &'r Registry, head: &Head<'_>, body: &[u8]) -> Answer<'r> {
    match registry.answer_sending(head.method, head.path, body) {
        Ok((Reply { status, body }, sending)) => Answer {
            status,
            body: body.into(),
            _sending: sending,
        },
        Err(error) => Answer {
            status: 503,
            body: error.into_body(),
            _sending: None,
        },
    }
}

// Returns whether there is memory for a thread to start: what is refused to it then ends the program.
fn has_room_for_thread() -> bool {
    Vec::<u8>::new().try_reserve_exact(ROOM_FOR_THREAD).is_ok()
}

// Accepts a client and serves it in a thread of its own. Returns whether the service continues.
fn welcome<'s>(
    scope: &'s Scope<'s, '_>,
    registry: &'s Registry,
    service: &'s Service,
    accepted: io::Result<(TcpStream, SocketAddr)>,
) -> bool {
    let (Ok((stream, _)), true) = (accepted, has_room_for_thread()) else {
        // For example, the process has no file descriptor left.
        thread::sleep(REST);
        return true;
    };
    let Some(client) = service.enter(stream) else {
        return false;
    };
    let serve = move || {
        // A panic, for example when a closure's captures are dropped, ends only this client.
        let served = AssertUnwindSafe(|| client.serve(registry));
        drop(catch_unwind(served));
    };
    let named = thread::Builder::new().name("failreg-client".into());
    // If there is no thread, the client is dropped with what it would have run.
    drop(named.spawn_scoped(scope, serve));
    true
}

// Serves clients until the service is over, and returns when the last one is gone.
fn accept_all(registry: &Registry, service: &Service, listener: TcpListener) {
    thread::scope(|scope| {
        while service.has_place() && welcome(scope, registry, service, listener.accept()) {}
        drop(listener);
        service.change(|clients| clients.is_deaf = true);
    });
}

/// The HTTP service of a registry. A drop ends it.
#[must_use = "the service ends when it is dropped: keep it as long as clients may come"]
pub struct Serving {
    service: Arc<Service>,
    thread: Option<JoinHandle<()>>,
}

impl Serving {
    /// Returns the address to connect to, with the port that the system picked if 0 was requested.
    pub fn addr(&self) -> SocketAddr {
        self.service.addr
    }

    /// Ends the service, as a drop does: it accepts no client, gives current requests 2 seconds,
    /// and joins all its threads.
    pub fn stop(mut self) {
        self.end();
    }

    fn end(&mut self) {
        let Some(thread) = self.thread.take() else {
            return;
        };
        let service = &self.service;
        service.change(|clients| clients.is_over = true);
        while !service.wait_while(REST, |clients| !clients.is_deaf).is_deaf {
            // The thread may be waiting for a client, which wakes it up.
            drop(TcpStream::connect_timeout(&service.addr, REST));
        }
        let waited = service.wait_while(LAST_TIME, |clients| !clients.streams.is_empty());
        for stream in waited.streams.values() {
            // It fails if the client is gone.
            drop(stream.shutdown(Shutdown::Both));
        }
        drop(waited);
        service.change(|clients| clients.is_cut = true);
        // It never panics: panics of a client's thread are caught there.
        drop(thread.join());
    }
}

impl Drop for Serving {
    fn drop(&mut self) {
        self.end();
    }
}

impl fmt::Debug for Serving {
    fn fmt(&self, f: &mut fmt::Formatter<'_>) -> fmt::Result {
        f.debug_struct("Serving")
            .field("addr", &self.addr())
            .finish_non_exhaustive()
    }
}

/// A registry that was opened to be served ([`Builder::listen`](crate::Builder::listen)). A drop
/// ends the service.
#[derive(Debug)]
#[must_use = "the service ends when it is dropped: keep it as long as clients may come"]
pub struct Served {
    pub(crate) registry: Arc<Registry>,
    pub(crate) serving: Serving,
}

impl Served {
    /// Returns the registry, also for [`gossip`](crate::gossip).
    pub fn registry(&self) -> &Arc<Registry> {
        &self.registry
    }

    /// Returns the service.
    pub fn serving(&self) -> &Serving {
        &self.serving
    }
}

impl Deref for Served {
    type Target = Registry;

    fn deref(&self) -> &Registry {
        &self.registry
    }
}

/// Returns the error of an address that needs a key.
pub(crate) fn not_local(addr: &SocketAddr) -> Error {
    let fault = format!(
        "{} can be reached by other machines, and there is no key",
        addr.ip()
    );
    Error::new(ErrorKind::NotLocal, fault)
}

/// Binds an address: a loopback address, unless there is a key.
pub(crate) fn listen(
    addr: impl ToSocketAddrs + fmt::Debug,
    has_key: bool,
) -> Result<TcpListener, Error> {
    let cant = |error: io::Error| Error::new(ErrorKind::CantListen, error.to_string());
    let addrs = addr.to_socket_addrs().map_err(cant);
    let addrs: Vec<SocketAddr> = addrs.map_err(|e| e.at_address(&addr))?.collect();
    let other = addrs.iter().find(|addr| !addr.ip().is_loopback());
    if let Some(other) = other.filter(|_| !has_key) {
        return Err(not_local(other).at_address(&addr));
    }
    TcpListener::bind(&addrs[..])
        .and_then(|listener| with_backlog(listener, BACKLOG))
        .map_err(cant)
        .map_err(|error| error.at_address(&addr))
}

// Lets more connections wait to be accepted than the 128 of the standard library.
#[cfg(unix)]
fn with_backlog(listener: TcpListener, backlog: i32) -> io::Result<TcpListener> {
    use std::os::fd::AsRawFd;
    unsafe extern "C" {
        safe fn listen(socket: i32, backlog: i32) -> i32;
    }
    match listen(listener.as_raw_fd(), backlog) {
        0 => Ok(listener),
        _ => Err(io::Error::last_os_error()),
    }
}

#[cfg(not(unix))]
fn with_backlog(listener: TcpListener, _: i32) -> io::Result<TcpListener> {
    Ok(listener)
}

/// Serves clients of a listener.
pub(crate) fn serve_at(
    registry: impl Deref<Target = Registry> + Send + 'static,
    listener: TcpListener,
) -> Result<Serving, Error> {
    let addr = listener
        .local_addr()
        .map_err(|error| Error::new(ErrorKind::CantListen, error.to_string()))?;
    let service = Arc::new(Service {
        addr,
        key: registry.key.clone(),
        clients: Mutex::new(Clients {
            streams: HashMap::with_capacity(CLIENTS),
            ..Clients::default()
        }),
        changed: Condvar::new(),
    });
    let its = service.clone();
    let thread = thread::Builder::new()
        .name("failreg-serve".into())
        .spawn(move || accept_all(&registry, &its, listener))
        .map_err(|error| Error::new(ErrorKind::NoThread, error.to_string()))?;
    Ok(Serving {
        service,
        thread: Some(thread),
    })
}

/// Serves a registry over HTTP, in threads of its own, until the result is dropped:
///
/// ```
/// # if failreg::has_failpoints() {
/// use failreg::{Registry, serve};
/// use std::sync::Arc;
///
/// let node = Arc::new(Registry::open(0, 1, 1_000_000)?);
/// let serving = serve(node, "127.0.0.1:0")?;
/// println!("curl -X PUT --data '2*panic->off' {}/fail/disk", serving.addr());
/// # }
/// # Ok::<(), failreg::Error>(())
/// ```
///
/// The registry is an `Arc<Registry>`, or the program's `&'static Registry`. [`Registry::answer`]
/// lists the requests and their responses. In addition, `GET /` returns the browser UI, and the
/// status has an `ETag`: a client that sends it in `If-None-Match` gets 304 without a body until
/// the status changes.
///
/// Without a key the address must be a loopback address, and every local process may set points. A
/// browser page may not: a request whose `Host` isn't this machine, or whose `Origin` isn't the
/// service itself, gets 403, and nothing happens. With a key
/// ([`Builder::key_file`](crate::Builder::key_file)) other machines may reach the address, `Host`
/// may be any name, and `Origin` the page of that name. A request without the key gets 401 after
/// its head: nothing happens, and its body isn't read. Only the page itself needs no key: it has no
/// data of the node, and asks for the key.
///
/// A connection carries one request, with a head of at most 64 KiB; the client has 2 seconds for
/// the head and 10 in total. 64 clients are served at once, 4 of them with a body over 64 KiB; the next
/// ones wait. The registry's lock is held only during a call, never while data is received or sent.
///
/// # Errors
/// [`NotLocal`](ErrorKind::NotLocal); [`CantListen`](ErrorKind::CantListen), for example because
/// another process listens there; [`NoThread`](ErrorKind::NoThread), or
/// [`Disabled`](ErrorKind::Disabled).
pub fn serve(
    registry: impl Deref<Target = Registry> + Send + 'static,
    addr: impl ToSocketAddrs + fmt::Debug,
) -> Result<Serving, Error> {
    let listener = listen(addr, registry.key.is_some())?;
    serve_at(registry, listener)
}
