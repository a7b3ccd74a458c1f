//! What the replay program prints for an input. Section "The replay program" of document 01.

use crate::limits::BLOCK;
use crate::messages::{take, HASHES};
use crate::number::DONE;
use crate::store::{open, store_size};
use crate::tree::Facts;
use crate::Answer;

const MOST_HASHES: usize = 528;
const MOST_BLOCKS: u64 = 512;
const BROKEN_STREAM: &str = "1 0\n";
const REFUSED_OPENING: &str = "10 0\n";

/// The whole output. Its last line is always `end`.
pub fn replay(input: &[u8]) -> String {
    let mut session = Session { store: None, message: None, hashes: 0, output: String::new() };
    if let Err(last_line) = session.run(input) {
        session.output.push_str(last_line);
    }
    session.output + "end\n"
}

struct Session {
    store: Option<Vec<u8>>,
    /// The message under way, from its header to its end.
    message: Option<Vec<u8>>,
    hashes: usize,
    output: String,
}

fn body_size(kind: u8) -> Option<usize> {
    match kind {
        1 => Some(44),
        2 => Some(48),
        3 => Some(32),
        4 => Some(0),
        _ => None,
    }
}

impl Session {
    /// Runs through the records; on an error the line to print before stopping.
    fn run(&mut self, mut input: &[u8]) -> Result<(), &'static str> {
        while let Some((&kind, rest)) = input.split_first() {
            let size = body_size(kind).filter(|size| *size <= rest.len()).ok_or(BROKEN_STREAM)?;
            let (body, rest) = rest.split_at(size);
            self.record(kind, body)?;
            input = rest;
        }
        if self.message.is_some() {
            return Err(BROKEN_STREAM);
        }
        Ok(())
    }

    fn record(&mut self, kind: u8, body: &[u8]) -> Result<(), &'static str> {
        match (kind, &mut self.store, &mut self.message) {
            (1, _, None) => self.open(body),
            (2, Some(_), None) => {
                self.message = Some([&[HASHES], body].concat());
                self.hashes = 0;
                Ok(())
            }
            (3, _, Some(message)) if self.hashes < MOST_HASHES => {
                message.extend_from_slice(body);
                self.hashes += 1;
                Ok(())
            }
            (4, Some(store), Some(message)) => {
                let answer = take(store, message);
                self.message = None;
                self.print(answer);
                Ok(())
            }
            _ => Err(BROKEN_STREAM),
        }
    }

    fn open(&mut self, body: &[u8]) -> Result<(), &'static str> {
        let facts = Facts {
            length: u64::from_be_bytes(body[0..8].try_into().unwrap()),
            piece_length: u32::from_be_bytes(body[8..12].try_into().unwrap()) as u64,
            root: body[12..44].try_into().unwrap(),
        };
        if !facts.in_range() || facts.length > MOST_BLOCKS * BLOCK {
            return Err(REFUSED_OPENING);
        }
        let mut store = vec![0; store_size(facts.length, facts.piece_length).count as usize];
        let answer = open(&mut store, facts.length, facts.piece_length, facts.root);
        assert_eq!(answer.number, DONE);
        self.store = Some(store);
        self.print(answer);
        Ok(())
    }

    fn print(&mut self, answer: Answer) {
        self.output.push_str(&format!("{} {}\n", answer.number, answer.count));
    }
}

#[cfg(test)]
mod tests {
    use super::*;
    use crate::messages::Header;
    use crate::sha256::Hash;
    use crate::tree::{of_file, Position};
    use std::collections::HashMap;

    fn file() -> Vec<u8> {
        (0..81920u32).map(|i| (i * 3 + i / 255) as u8).collect()
    }

    fn opening(length: u64, root: Hash) -> Vec<u8> {
        [&[1][..], &length.to_be_bytes(), &16384u32.to_be_bytes(), &root].concat()
    }

    fn root() -> Hash {
        of_file(&file()).last().unwrap().1
    }

    fn message(base: u32, index: u32, length: u32, proof: u32) -> Vec<u8> {
        let tree: HashMap<Position, Hash> = of_file(&file()).into_iter().collect();
        let header = Header { root: root(), base, index, length, proof };
        let mut records = vec![2];
        records.extend_from_slice(&header.write(HASHES)[1..]);
        for at in header.given_positions() {
            records.push(3);
            records.extend_from_slice(&tree[&at]);
        }
        records.push(4);
        records
    }

    fn session() -> Vec<u8> {
        let first = message(0, 0, 4, 1);
        [opening(81920, root()), first.clone(), message(2, 0, 2, 0), first.clone(), first].concat()
    }

    #[test]
    fn worked_session() {
        assert_eq!(replay(&session()), "0 1\n6 0\n0 2\n0 6\n0 0\nend\n");
    }

    #[test]
    fn a_broken_stream_stops() {
        assert_eq!(replay(&[]), "end\n");
        assert_eq!(replay(&[5]), "1 0\nend\n");
        assert_eq!(replay(&[3; 33]), "1 0\nend\n");
        assert_eq!(replay(&[4]), "1 0\nend\n");
        assert_eq!(replay(&message(2, 0, 2, 0)), "1 0\nend\n");
        assert_eq!(replay(&opening(81920, root())[..44]), "1 0\nend\n");
        let whole = session();
        assert_eq!(replay(&whole[..whole.len() - 1]), "0 1\n6 0\n0 2\n0 6\n1 0\nend\n");
    }

    #[test]
    fn an_opening_inside_a_message_is_a_broken_stream() {
        let inside = [opening(81920, root()), message(2, 0, 2, 0)[..49].to_vec(), opening(0, root())].concat();
        assert_eq!(replay(&inside), "0 1\n1 0\nend\n");
    }

    #[test]
    fn a_refused_opening_stops() {
        assert_eq!(replay(&[opening(0, root()), session()].concat()), "10 0\nend\n");
        assert_eq!(replay(&opening(512 * 16384, root())), "0 1\nend\n");
        assert_eq!(replay(&opening(512 * 16384 + 1, root())), "10 0\nend\n");
    }

    #[test]
    fn the_hash_after_the_528th_stops() {
        let head = [opening(81920, root()), message(2, 0, 2, 0)[..49].to_vec()].concat();
        let hash: Vec<u8> = [3].iter().chain(&[0; 32]).copied().collect();
        let most = [head.clone(), hash.repeat(528), vec![4]].concat();
        assert_eq!(replay(&most), "0 1\n4 0\nend\n");
        let more = [head, hash.repeat(529), vec![4]].concat();
        assert_eq!(replay(&more), "0 1\n1 0\nend\n");
    }
}
