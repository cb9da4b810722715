//! The program `drill`, which makes any public call of the proved libraries
//! on what it reads. Its requests are told in crates/drill/src/main.rt.

use std::env;
use std::io::{BufReader, Read, Write};
use std::path::PathBuf;
use std::process::{Child, ChildStdin, ChildStdout, Command, Stdio};
use std::thread;

use second::RawStore;

/// The number of each call in a request.
#[derive(Clone, Copy, Debug, PartialEq, Eq, PartialOrd, Ord)]
#[repr(u64)]
pub enum Call {
    Enter = 1,
    Make,
    Reply,
    Judge,
    Take,
    Beat,
    Round,
    ReadFrame,
    WriteFrame,
    ReadImage,
    WriteImage,
    ImageLength,
    Ordered,
    Empty,
    RoundRecord,
    WriteSheet,
    OpeningCost,
}

/// The most words and the most bytes of a request.
pub const MOST_WORDS: usize = 16 * RawStore::LIMIT;
pub const MOST_BYTES: usize = 32 * RawStore::LIMIT;

/// The words and bytes of a request, or of the reply to it.
#[derive(Clone, Debug, Default, PartialEq, Eq)]
pub struct Card {
    pub words: Vec<u64>,
    pub bytes: Vec<u8>,
}

/// A running `drill`.
pub struct Drill {
    child: Child,
    requests: Option<ChildStdin>,
    replies: BufReader<ChildStdout>,
}

/// A file under the repository's target/, which `rt` makes.
///
/// # Panics
/// If it isn't there, with the command that makes it.
pub fn made_by_rt(file: &str, command: &str) -> PathBuf {
    // Asked when the test runs: a build folder that was copied from another
    // checkout must not find that one's programs.
    let here = env::var_os("CARGO_MANIFEST_DIR");
    let here = here.map_or(PathBuf::from(env!("CARGO_MANIFEST_DIR")), PathBuf::from);
    let path = here.join("../../target").join(file);
    assert!(
        path.exists(),
        "target/{file} is missing: run `{command}` in the repository's root first",
    );
    path
}

impl Drill {
    /// Starts the program.
    pub fn start() -> Drill {
        let path = made_by_rt("bin/drill", "tools/build drill");
        let mut child = Command::new(&path)
            .stdin(Stdio::piped())
            .stdout(Stdio::piped())
            .spawn()
            .unwrap_or_else(|error| panic!("{} does not start: {error}", path.display()));
        let requests = child.stdin.take();
        let replies = child.stdout.take().expect("a pipe was asked for");
        Drill {
            child,
            requests,
            replies: BufReader::with_capacity(1 << 16, replies),
        }
    }

    /// One request and its reply.
    pub fn ask(&mut self, call: Call, card: &Card) -> Card {
        let request = request_bytes(call as u64, card);
        self.send(&request);
        self.hear(card)
    }

    /// Many requests, written while the replies are read.
    pub fn ask_all(&mut self, cards: &[(Call, &Card)]) -> Vec<Card> {
        let mut requests = self.requests.take().expect("the drill is running");
        thread::scope(|scope| {
            let writer = scope.spawn(move || {
                for (call, card) in cards {
                    requests
                        .write_all(&request_bytes(*call as u64, card))
                        .expect("the drill takes requests");
                }
                requests
            });
            let replies: Vec<Card> = cards.iter().map(|(_, card)| self.hear(card)).collect();
            self.requests = Some(writer.join().expect("the writer ends"));
            replies
        })
    }

    /// Writes any bytes to the program.
    pub fn send(&mut self, bytes: &[u8]) {
        let requests = self.requests.as_mut().expect("the drill is running");
        requests.write_all(bytes).expect("the drill takes requests");
    }

    fn hear(&mut self, card: &Card) -> Card {
        let mut mark = [0];
        self.replies
            .read_exact(&mut mark)
            .expect("the drill replies to each request");
        assert_eq!(mark, *b"=", "the drill could not read a request");
        let mut words = vec![0; 8 * card.words.len()];
        self.replies.read_exact(&mut words).expect("words");
        let mut bytes = vec![0; card.bytes.len()];
        self.replies.read_exact(&mut bytes).expect("bytes");
        let words = words.chunks_exact(8);
        Card {
            words: words
                .map(|word| u64::from_be_bytes(word.try_into().expect("eight bytes")))
                .collect(),
            bytes,
        }
    }

    /// Ends the input; all that the program wrote and hadn't been read.
    pub fn end(mut self) -> Vec<u8> {
        drop(self.requests.take());
        let mut rest = Vec::new();
        self.replies.read_to_end(&mut rest).expect("the last bytes");
        rest
    }
}

impl Drop for Drill {
    fn drop(&mut self) {
        // At the end of its input the program ends by itself.
        drop(self.requests.take());
        if thread::panicking() {
            let _ = self.child.kill();
        }
        let _ = self.child.wait();
    }
}

/// A request as the program reads it.
pub fn request_bytes(call: u64, card: &Card) -> Vec<u8> {
    let mut bytes = Vec::with_capacity(24 + 8 * card.words.len() + card.bytes.len());
    for number in [call, card.words.len() as u64, card.bytes.len() as u64] {
        bytes.extend(number.to_be_bytes());
    }
    for word in &card.words {
        bytes.extend(word.to_be_bytes());
    }
    bytes.extend(&card.bytes);
    bytes
}
