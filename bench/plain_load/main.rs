// A plain load for a server of a season.
//
//     plain_load PORT CLIENTS COUNT KIND CANDIDATES      KIND is state, seat or answer; CANDIDATES is a file with lines `ID TOKEN`
//
// CLIENTS connections are open at once. Each takes the next of all requests when it has the reply to its last one, and ends after a hundred.
// Another then takes its place, so all of them work until the requests run out.
// It has at most as many threads as there are processors, as other load generators have (wrk, for one). A thread waits for all its connections at once.
// With a thread for each connection the load itself got slower with more connections.
// It prints how many replies came, the seconds, the 50th and the 99th percentile of a reply in microseconds, and how many replies were not 200.
// It also prints the sum of the checksums of all bodies, which is the same for servers that reply the same.
// With `answer`, each candidate of the file answers in turn 1, then each in turn 2, and so on. So COUNT is at most 16 times the number of candidates.
use std::io::{Read, Write};
use std::net::{Ipv4Addr, TcpStream};
use std::os::fd::AsRawFd;
use std::sync::atomic::{AtomicUsize, Ordering};
use std::time::Instant;

const MOST_MESSAGES: usize = 100;

/// What poll(2) takes, and fills in.
#[repr(C)]
struct Polled {
    fd: i32,
    events: i16,
    revents: i16,
}

const POLLIN: i16 = 1;
const MOST_WAIT: i32 = 60_000;

unsafe extern "C" {
    fn poll(fds: *mut Polled, count: u64, milliseconds: i32) -> i32;
}

struct Told {
    micros: Vec<u32>,
    others: u64,
    sum: u64,
}

/// What the server is asked, how often, and how many of these requests were taken.
struct Load {
    port: u16,
    kind: String,
    people: Vec<(String, String)>,
    count: usize,
    taken: AtomicUsize,
}

impl Load {
    fn connected(&self) -> TcpStream {
        let stream = TcpStream::connect((Ipv4Addr::LOCALHOST, self.port)).unwrap();
        stream.set_nodelay(true).unwrap();
        stream
    }

    fn next(&self) -> Option<Vec<u8>> {
        let at = self.taken.fetch_add(1, Ordering::Relaxed);
        let (id, token) = &self.people[at % self.people.len()];
        (at < self.count).then(|| request(&self.kind, id, token, at / self.people.len() + 1))
    }
}

fn request(kind: &str, id: &str, token: &str, turn: usize) -> Vec<u8> {
    match kind {
        "state" => b"GET /v1/state HTTP/1.1\r\nHost: 127.0.0.1\r\n\r\n".to_vec(),
        "seat" => format!("GET /v1/seat/{id} HTTP/1.1\r\nHost: 127.0.0.1\r\nX-Office-Token: {token}\r\n\r\n").into_bytes(),
        _ => {
            let body = format!("{{\"cand\":{id},\"window\":1,\"turn\":{turn},\"choice\":\"float\"}}");
            format!("POST /v1/answer HTTP/1.1\r\nHost: 127.0.0.1\r\nX-Office-Token: {token}\r\nContent-Length: {}\r\n\r\n{body}", body.len()).into_bytes()
        }
    }
}

/// FNV-1a.
fn checksum(bytes: &[u8]) -> u64 {
    bytes.iter().fold(0xcbf2_9ce4_8422_2325, |sum, b| (sum ^ u64::from(*b)).wrapping_mul(0x100_0000_01b3))
}

fn length(head: &[u8]) -> usize {
    let head = std::str::from_utf8(head).unwrap();
    let (_, rest) = head.split_once("Content-Length: ").unwrap();
    rest.split("\r\n").next().unwrap().parse().unwrap()
}

/// One of the connections at once: how many requests it had, when the last one was sent, and what has come of the reply.
struct Client<'a> {
    load: &'a Load,
    stream: TcpStream,
    had: usize,
    begun: Instant,
    held: Vec<u8>,
}

impl Client<'_> {
    /// Sends the next request, over a new connection after each hundred. It is false if there is none.
    fn send(&mut self) -> bool {
        let Some(bytes) = self.load.next() else {
            return false;
        };
        if self.had == MOST_MESSAGES {
            (self.stream, self.had) = (self.load.connected(), 0);
        }
        self.had += 1;
        self.begun = Instant::now();
        self.stream.write_all(&bytes).unwrap();
        true
    }

    /// Reads what has come. It is true if the reply is whole, which is then told.
    fn read(&mut self, told: &mut Told) -> bool {
        let mut piece = [0; 4096];
        let count = self.stream.read(&mut piece).unwrap();
        assert!(count > 0, "the connection ended in a reply");
        self.held.extend_from_slice(&piece[..count]);
        let Some(end) = self.held.windows(4).position(|it| it == b"\r\n\r\n") else {
            return false;
        };
        let whole = end + 4 + length(&self.held[..end + 2]);
        if self.held.len() != whole {
            return false;
        }
        told.micros.push(self.begun.elapsed().as_micros() as u32);
        told.others += u64::from(!self.held.starts_with(b"HTTP/1.1 200 "));
        told.sum = told.sum.wrapping_add(checksum(&self.held[end + 4..]));
        self.held.clear();
        true
    }
}

/// Sends the requests of some connections, each when it has the reply to its last one.
fn drive(mut clients: Vec<Client>) -> Told {
    let mut told = Told { micros: Vec::new(), others: 0, sum: 0 };
    clients.retain_mut(Client::send);
    while !clients.is_empty() {
        let mut polled: Vec<Polled> = clients.iter().map(|it| Polled { fd: it.stream.as_raw_fd(), events: POLLIN, revents: 0 }).collect();
        assert!(unsafe { poll(polled.as_mut_ptr(), polled.len() as u64, MOST_WAIT) } > 0, "no reply came within a minute");
        let mut came = polled.iter().map(|it| it.revents != 0);
        clients.retain_mut(|it| !came.next().unwrap() || !it.read(&mut told) || it.send());
    }
    told
}

fn main() {
    let words: Vec<String> = std::env::args().collect();
    let (port, clients, count): (u16, usize, usize) = (words[1].parse().unwrap(), words[2].parse().unwrap(), words[3].parse().unwrap());
    let text = std::fs::read_to_string(&words[5]).unwrap();
    let people = text.lines().filter_map(|line| line.split_once(' ')).map(|(id, token)| (id.to_string(), token.to_string())).collect();
    let load = Load { port, kind: words[4].clone(), people, count, taken: AtomicUsize::new(0) };
    let threads = std::thread::available_parallelism().unwrap().get().min(clients);
    let mut crews: Vec<Vec<Client>> = (0..threads).map(|_| Vec::new()).collect();
    for at in 0..clients {
        crews[at % threads].push(Client { load: &load, stream: load.connected(), had: 0, begun: Instant::now(), held: Vec::new() });
    }
    let begun = Instant::now();
    let told: Vec<Told> = std::thread::scope(|scope| {
        let threads: Vec<_> = crews.into_iter().map(|clients| scope.spawn(move || drive(clients))).collect();
        threads.into_iter().map(|it| it.join().unwrap()).collect()
    });
    let seconds = begun.elapsed().as_secs_f64();
    let mut micros: Vec<u32> = told.iter().flat_map(|it| it.micros.iter().copied()).collect();
    micros.sort_unstable();
    let at = |part: usize| micros[(micros.len() - 1) * part / 100];
    let others: u64 = told.iter().map(|it| it.others).sum();
    let sum = told.iter().fold(0u64, |sum, it| sum.wrapping_add(it.sum));
    println!("{} {seconds:.6} {} {} {others} {sum}", micros.len(), at(50), at(99));
}
