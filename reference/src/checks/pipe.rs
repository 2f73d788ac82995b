//! A run of a program whose standard input is a pipe, written whole or in pieces, so that its reads come
//! back short.

use std::fs;
use std::io::{self, Read, Write};
use std::process::{Child, Command, ExitStatus, Stdio};
use std::sync::mpsc;
use std::thread;
use std::time::{Duration, Instant};

use crate::random::Random;

/// More than any program prints that is worth comparing; the rest is not read.
const MOST_OUTPUT: u64 = 1 << 20;

/// How long the tool sleeps before it looks again, and how often it looks at most.
const NAP: Duration = Duration::from_micros(50);
const NAPS: u32 = 1000;

/// So many pauses at most, about, in one input: without them its pieces may run together in the pipe.
const PAUSES: u64 = 16;

/// What is written at once, and whether a pause follows, in which the program may read it.
#[derive(Clone, Copy, Debug, PartialEq, Eq)]
pub struct Piece {
    pub length: usize,
    pub pause: bool,
}

/// The input whole, or in pieces of one length, of any length, or in two.
pub fn any_pieces(random: &mut Random, length: usize) -> Vec<Piece> {
    let half = random.below(2) == 0;
    let any = 1 + random.below(100) as usize;
    let one = random.pick(&[1, 1, 2, 3, 4, 5, 7, 64, any, 4095, 4096, 4097]);
    let kind = random.below(4);
    let mut lengths = Vec::new();
    let mut left = length;
    while left > 0 {
        let next = match kind {
            _ if half => left,
            0 if lengths.is_empty() => 1 + random.below(left as u64) as usize,
            0 => left,
            1 => 1 + random.below(40) as usize,
            _ => one,
        };
        lengths.push(next.min(left));
        left -= next.min(left);
    }
    let count = lengths.len() as u64;
    let piece = |length| Piece {
        length,
        pause: random.below(count) < PAUSES,
    };
    lengths.into_iter().map(piece).collect()
}

/// Writes the pieces and closes the pipe. A program may stop to read when it has seen enough, so that
/// the rest cannot be written: that is its right.
fn feed(mut pipe: impl Write, input: &[u8], pieces: &[Piece], pause: impl Fn()) {
    let mut rest = input;
    for piece in pieces {
        let (now, later) = rest.split_at(piece.length);
        if pipe.write_all(now).and_then(|()| pipe.flush()).is_err() {
            return;
        }
        rest = later;
        match piece.pause && !rest.is_empty() {
            true => pause(),
            false => thread::yield_now(),
        }
    }
}

/// Waits until the program sleeps, as it does where it has read all that is there and wants more; where
/// the system does not tell, a moment.
fn until_asleep(process: u32) {
    for _ in 0..NAPS {
        thread::sleep(NAP);
        let stat = fs::read_to_string(format!("/proc/{process}/stat")).unwrap_or_default();
        // the state is the letter behind the name, which stands in brackets
        let state = stat
            .rsplit(") ")
            .next()
            .and_then(|rest| rest.chars().next());
        if !matches!(state, Some('R' | 'D')) {
            return;
        }
    }
}

#[derive(Clone, Debug, PartialEq, Eq)]
pub enum Outcome {
    Ended {
        output: Vec<u8>,
        status: ExitStatus,
    },
    /// It had not ended when its time was up.
    Late,
}

/// Runs the program (its path, and any arguments) on the input.
pub fn run(
    program: &[&str],
    input: Vec<u8>,
    pieces: Vec<Piece>,
    limit: Duration,
) -> io::Result<Outcome> {
    let end = Instant::now() + limit;
    let mut child = Command::new(program[0])
        .args(&program[1..])
        .stdin(Stdio::piped())
        .stdout(Stdio::piped())
        .stderr(Stdio::null())
        .spawn()?;
    let (Some(stdin), Some(stdout)) = (child.stdin.take(), child.stdout.take()) else {
        panic!("both are pipes");
    };
    // nobody waits for the two threads: a program that hangs may leave its pipes open to others
    let process = child.id();
    thread::spawn(move || feed(stdin, &input, &pieces, || until_asleep(process)));
    let (send, receive) = mpsc::channel();
    thread::spawn(move || {
        let mut output = Vec::new();
        let read = stdout.take(MOST_OUTPUT).read_to_end(&mut output);
        send.send(read.map(|_| output))
    });
    if let Ok(output) = receive.recv_timeout(limit) {
        if let Some(status) = wait(&mut child, end)? {
            let output = output?;
            return Ok(Outcome::Ended { output, status });
        }
    }
    child.kill()?;
    child.wait()?;
    Ok(Outcome::Late)
}

/// The status of the program once it has ended, or none where it has not by then.
fn wait(child: &mut Child, end: Instant) -> io::Result<Option<ExitStatus>> {
    loop {
        let status = child.try_wait()?;
        if status.is_some() || Instant::now() >= end {
            return Ok(status);
        }
        thread::sleep(NAP);
    }
}

#[cfg(test)]
mod tests {
    use super::*;

    fn shell(script: &str, input: Vec<u8>, pieces: Vec<Piece>) -> Outcome {
        let limit = Duration::from_secs(20);
        run(&["/bin/sh", "-c", script], input, pieces, limit).unwrap()
    }

    fn output(outcome: Outcome) -> Vec<u8> {
        match outcome {
            Outcome::Ended { output, status } if status.success() => output,
            other => panic!("{other:?}"),
        }
    }

    #[test]
    fn pieces_make_up_the_input() {
        let mut random = Random::new(1);
        for i in 0..300 {
            let input: Vec<u8> = (0..i * 7).map(|byte| byte as u8).collect();
            let pieces = any_pieces(&mut random, input.len());
            assert!(pieces.iter().all(|piece| piece.length > 0));
            let mut written = Vec::new();
            feed(&mut written, &input, &pieces, || {});
            assert_eq!(written, input);
        }
    }

    #[test]
    fn all_of_the_input_arrives() {
        let mut random = Random::new(1);
        for length in [0, 1, 2872, 4097, 200_000] {
            let input: Vec<u8> = (0..length).map(|_| random.word() as u8).collect();
            let pieces = any_pieces(&mut random, length);
            assert_eq!(output(shell("cat", input.clone(), pieces)), input);
        }
    }

    /// Each read gets no more than one piece.
    #[test]
    fn reads_come_back_short() {
        let pause = true;
        for lengths in [[3, 97, 1], [1, 4, 96]] {
            let pieces = lengths.map(|length| Piece { length, pause });
            let two_reads = "exec dd bs=100 count=2 2>/dev/null";
            let read = || output(shell(two_reads, vec![7; 101], pieces.to_vec())).len();
            // a program may sleep before it reads, too
            assert!((0..10).any(|_| read() == lengths[0] + lengths[1]));
        }
    }

    #[test]
    fn a_program_may_stop_to_read() {
        let whole = |length| {
            vec![Piece {
                length,
                pause: false,
            }]
        };
        assert_eq!(
            output(shell(
                "exec <&-; echo enough",
                vec![0; 200_000],
                whole(200_000)
            )),
            b"enough\n"
        );
    }

    #[test]
    fn a_failure_is_told() {
        match shell("echo admitted; exit 3", vec![], vec![]) {
            Outcome::Ended { output, status } => {
                assert_eq!((&output[..], status.code()), (&b"admitted\n"[..], Some(3)));
            }
            late => panic!("{late:?}"),
        }
    }

    /// It hangs with its output open, or closed, or in a program of its own, or it prints without end.
    #[test]
    fn no_program_hangs_the_run() {
        let limit = Duration::from_millis(200);
        for script in ["exec sleep 5", "exec >&-; exec sleep 5", "sleep 5; true"] {
            let program = ["/bin/sh", "-c", script];
            let late = run(&program, vec![0; 100_000], vec![], limit).unwrap();
            assert_eq!(late, Outcome::Late);
        }
        match shell("exec yes", vec![], vec![]) {
            Outcome::Ended { status, .. } => assert!(!status.success()),
            late => panic!("{late:?}"),
        }
    }
}
