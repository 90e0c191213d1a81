//! The library behind a pipe: a program of `peer/`, linked with the archive, answers requests on its standard input. A machine
//! that cannot link the archive runs it under an emulator.
//!
//! A request is the call's name as one number and its arguments, a reply what the call hands back and what its outputs
//! then hold; the little end first.

use crate::library::{Answer, Shape};
use crate::subject::Asked;
use crate::widths::shape_numbers;
use std::io::{self, BufReader, Read, Write};
use std::process::{Child, ChildStdin, ChildStdout, Command, ExitStatus, Stdio};
use std::thread;

pub struct Peer {
    child: Child,
    requests: Option<ChildStdin>,
    replies: Replies,
}

impl Peer {
    /// The words of a command line are parted by spaces.
    pub fn start(command_line: &str) -> Peer {
        let mut words = command_line.split_whitespace();
        let program = words.next().expect("the peer's command line is empty");
        let mut child = Command::new(program)
            .args(words)
            .stdin(Stdio::piped())
            .stdout(Stdio::piped())
            .spawn()
            .unwrap_or_else(|why| panic!("the peer `{command_line}` does not start: {why}"));
        let replies = child.stdout.take().expect("standard output is a pipe");
        Peer {
            requests: child.stdin.take(),
            replies: Replies(BufReader::new(replies)),
            child,
        }
    }

    /// The outcomes of the calls, in their order. One thread writes while this one reads: a pipe holds so little that
    /// neither side may wait for the other to be done.
    pub fn run<C: Asked>(&mut self, calls: &[C]) -> Vec<C::Outcome> {
        let requests = self.requests.as_mut().expect("the peer is running");
        let replies = &mut self.replies;
        let all: Vec<u8> = calls.iter().flat_map(|call| call.request().0).collect();
        let outcomes = thread::scope(|scope| {
            // a failed write shows in the replies, where it has a call to name
            scope.spawn(move || requests.write_all(&all).and_then(|()| requests.flush()));
            let read = |call: &C| call.reply(replies);
            calls.iter().map(read).collect::<io::Result<Vec<_>>>()
        });
        self.came(outcomes)
    }

    pub fn ask<C: Asked>(&mut self, call: &C) -> C::Outcome {
        self.exchange(call.request(), |replies| call.reply(replies))
    }

    /// Sends one request, of which the peer reads all before it writes, and reads its reply.
    pub fn exchange<T>(
        &mut self,
        request: Request,
        read: impl FnOnce(&mut Replies) -> io::Result<T>,
    ) -> T {
        let requests = self.requests.as_mut().expect("the peer is running");
        let written = requests
            .write_all(&request.0)
            .and_then(|()| requests.flush());
        let reply = written.and_then(|()| read(&mut self.replies));
        self.came(reply)
    }

    fn came<T>(&mut self, reply: io::Result<T>) -> T {
        reply.unwrap_or_else(|why| panic!("the peer gave no reply ({why}): {:?}", self.ended()))
    }

    fn ended(&mut self) -> io::Result<ExitStatus> {
        drop(self.requests.take());
        self.child.wait()
    }
}

impl Drop for Peer {
    /// The peer ends at the end of its input.
    fn drop(&mut self) {
        let _ = self.ended();
    }
}

/// The bytes of a request, put together from the front.
#[derive(Default)]
pub struct Request(Vec<u8>);

impl Request {
    /// Of the call that has this name in its peer.
    pub fn of(name: u32) -> Request {
        Request::default().numbers(&[name])
    }

    pub fn numbers<T: Number>(mut self, numbers: &[T]) -> Request {
        numbers.iter().for_each(|number| number.put(&mut self.0));
        self
    }

    pub fn lengths(self, lengths: &[usize]) -> Request {
        let lengths: Vec<u32> = lengths.iter().map(|n| *n as u32).collect();
        self.numbers(&lengths)
    }

    pub fn shape(self, shape: &Shape) -> Request {
        self.numbers(&shape_numbers(shape))
    }
}

/// Where replies are read from.
pub struct Replies(BufReader<ChildStdout>);

impl Replies {
    pub fn numbers<T: Number>(&mut self, count: usize) -> io::Result<Vec<T>> {
        let mut bytes = vec![0; size_of::<T>() * count];
        self.0.read_exact(&mut bytes)?;
        let numbers = bytes.chunks_exact(size_of::<T>());
        Ok(numbers.map(T::of).collect())
    }

    /// As many numbers as the caller names.
    pub fn told<T: Number, const N: usize>(&mut self) -> io::Result<[T; N]> {
        let numbers = self.numbers(N)?;
        Ok(std::array::from_fn(|k| numbers[k]))
    }

    pub fn answer(&mut self) -> io::Result<Answer> {
        let [number, place, rails] = self.told()?;
        Ok(Answer {
            number,
            place,
            rails,
        })
    }
}

/// A number that crosses a pipe.
pub trait Number: Copy {
    fn put(self, to: &mut Vec<u8>);

    /// The number that has these bytes, as many as it takes.
    fn of(bytes: &[u8]) -> Self;
}

macro_rules! crosses {
    ($($number:ty),*) => {
        $(impl Number for $number {
            fn put(self, to: &mut Vec<u8>) {
                to.extend(self.to_le_bytes());
            }

            fn of(bytes: &[u8]) -> $number {
                <$number>::from_le_bytes(bytes.try_into().expect("as many bytes as it takes"))
            }
        })*
    };
}
crosses!(u8, i16, u32, i32, u64, i64);
