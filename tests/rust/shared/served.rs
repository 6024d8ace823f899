// The bench behind a pipe (served.c), where BENCH_SERVED has the command that runs it: the shipped code on a machine that cannot link it.
use std::io::{Read, Write};
use std::process::{Child, ChildStdin, ChildStdout, Command, Stdio};
use std::sync::{Mutex, OnceLock};

struct Served {
    _child: Child,
    to: ChildStdin,
    from: ChildStdout,
}

fn served() -> Option<&'static Mutex<Served>> {
    static SERVED: OnceLock<Option<Mutex<Served>>> = OnceLock::new();
    let start = || {
        let command = std::env::var("BENCH_SERVED").ok()?;
        let mut words = command.split_whitespace();
        let mut child = Command::new(words.next().unwrap()).args(words).stdin(Stdio::piped()).stdout(Stdio::piped()).spawn().unwrap();
        let (to, from) = (child.stdin.take().unwrap(), child.stdout.take().unwrap());
        Some(Mutex::new(Served { _child: child, to, from }))
    };
    SERVED.get_or_init(start).as_ref()
}

fn bytes<T>(xs: &[T]) -> &[u8] {
    unsafe { std::slice::from_raw_parts(xs.as_ptr().cast::<u8>(), std::mem::size_of_val(xs)) }
}

// Arguments are told in order; once the call is made, each slice is taken back in the same order.
#[derive(Default)]
pub struct Call {
    arguments: u64,
    sent: Vec<u8>,
    slices: usize,
    back: Vec<u8>,
    taken: usize,
}

impl Call {
    pub fn where_served() -> Option<Call> {
        served().map(|_| Call::default())
    }
    fn argument(&mut self, a: u64, b: u64) {
        self.sent.extend(a.to_le_bytes());
        self.sent.extend(b.to_le_bytes());
        self.arguments += 1;
    }
    pub fn number(&mut self, n: u64) {
        self.argument(0, n);
    }
    pub fn slice<T>(&mut self, xs: &[T]) {
        self.argument(std::mem::size_of::<T>() as u64, xs.len() as u64);
        self.sent.extend(bytes(xs));
        self.sent.resize(self.sent.len().next_multiple_of(8), 0);
        self.slices += bytes(xs).len().next_multiple_of(8);
    }
    pub fn make(&mut self, name: &str) {
        let mut head = [0; 72];
        head[..name.len()].copy_from_slice(name.as_bytes());
        head[64..].copy_from_slice(&self.arguments.to_le_bytes());
        let mut s = served().unwrap().lock().unwrap();
        s.to.write_all(&head).unwrap();
        s.to.write_all(&self.sent).unwrap();
        s.to.flush().unwrap();
        self.back = vec![0; self.slices];
        s.from.read_exact(&mut self.back).expect("the bench ended");
    }
    fn next(&mut self, n: usize) -> &[u8] {
        let at = self.taken;
        self.taken += n.next_multiple_of(8);
        &self.back[at..at + n]
    }
    pub fn read<T>(&mut self, xs: &[T]) {
        assert!(self.next(bytes(xs).len()) == bytes(xs), "a slice that is only read was written");
    }
    pub fn written<T>(&mut self, xs: &mut [T]) {
        let to = unsafe { std::slice::from_raw_parts_mut(xs.as_mut_ptr().cast::<u8>(), std::mem::size_of_val(xs)) };
        to.copy_from_slice(self.next(to.len()));
    }
}
