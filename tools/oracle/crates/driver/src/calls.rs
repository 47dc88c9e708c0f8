//! Each call of `session` as calls of the store's Rust, and each answer as its line.
//!
//! Two answers are not the Rust's, which has no such limits, but follow the product's rules, so that a session may go
//! on after them (they change nothing on either side): 2 for a list over 16; 10 for a key over 4,096 bytes, a path limit
//! over 64, an epoch length of 0, or a curvature out of range. Damage (1) and room (7, 8, 9) have no counterpart here.
//! `epoch` goes through the Rust's own Epoch for the length that it has, and is depth / length for any other.
//! `ancestors` takes time in proportion to its number of steps, and `path` can take exponential time.
use crate::target::TargetPlace;
use crate::words::{self, Bytes32, Word};
use disentangle_crypto::hash::sha3_256;
use disentangle_crypto::signature::{Signature, VerifyingKey};
use disentangle_dag::{
    effective_alpha, fp_from_ratio, fp_mul, DagError, Epoch, Nullifier, Transaction, TransactionDAG, SCALE,
};
use disentangle_node::HelloWorldPoW;
use disentangle_p2p::sync::{SyncResult, SyncState, MAX_PENDING_TXS};
use disentangle_p2p::wire::WireTransaction;
use disentangle_simhash::SimHash;
use std::fmt::Display;

const _: () = assert!(MAX_PENDING_TXS == 64, "build sets the source's limit to the product's");

const LIST_LIMIT: usize = 16;
const KEY_LIMIT: usize = 4096;
const PATH_LIMIT: u64 = 64;
const SERVED: &str = "0";
const NONE_HERE: &str = "none-here";
const LIST_TOO_LONG: &str = "2";
const OUT_OF_RANGE: &str = "10";

pub struct Oracle {
    state: SyncState,
    target_place: TargetPlace,
}

fn record(key: Vec<u8>, id: Bytes32, nullifier: Bytes32, parents: Vec<Bytes32>) -> Transaction {
    Transaction {
        id,
        ephemeral_pk: VerifyingKey(key),
        signature: Signature,
        parents,
        simhash: SimHash,
        nullifier: Nullifier(nullifier),
        reputation_claim: 0,
        confidential_outputs: Vec::new(),
        payload: None,
    }
}

fn hex(id: &Bytes32) -> String {
    let digit = |value: u8| char::from(b"0123456789abcdef"[usize::from(value)]);
    id.iter().flat_map(|byte| [digit(byte >> 4), digit(byte & 15)]).collect()
}

fn value(number: impl Display) -> String {
    format!("0 {number}")
}

fn yes_or_no(yes: bool) -> String {
    value(yes as u8)
}

fn ids<'a>(reply: &str, listed: impl IntoIterator<Item = &'a Bytes32>) -> String {
    listed.into_iter().fold(reply.to_string(), |line, id| line + " " + &hex(id))
}

/// The limits of a record that the Rust does not have, in the product's order.
fn refused(entry: &Transaction) -> Option<String> {
    if entry.parents.len() > LIST_LIMIT {
        Some(LIST_TOO_LONG.to_string())
    } else if entry.ephemeral_pk.0.len() > KEY_LIMIT {
        Some(OUT_OF_RANGE.to_string())
    } else {
        None
    }
}

fn refusal(error: DagError) -> String {
    match error {
        DagError::DuplicateNullifier => "3".to_string(),
        DagError::TooManyParents(count, limit) => format!("4 {count} {limit}"),
        DagError::TooFewParents(count, limit) => format!("5 {count} {limit}"),
        DagError::MissingParent(id) => format!("6 {}", hex(&id)),
        DagError::InvalidSignature => unreachable!("no call checks a signature"),
    }
}

impl Oracle {
    pub fn new() -> Self {
        Self { state: SyncState::new(0), target_place: TargetPlace::find() }
    }

    fn dag(&mut self) -> &mut TransactionDAG {
        self.state.dag_mut()
    }

    /// None for a line that is no call or has a malformed word.
    pub fn call(&mut self, line: &[u8]) -> Option<String> {
        let words: Vec<Word> = line.split(|byte| *byte == b' ').collect();
        self.changing(words[0], &words[1..])
    }

    /// The calls that may change the store; any other word goes on to `reading`.
    fn changing(&mut self, call: Word, words: &[Word]) -> Option<String> {
        Some(match (call, words) {
            (b"empty", []) => {
                self.state = SyncState::new(0);
                SERVED.to_string()
            }
            (b"insert" | b"genesis", [id, nullifier, parents @ ..]) => {
                let entry = record(vec![], words::bytes32(id)?, words::bytes32(nullifier)?, words::list(parents)?);
                self.insert(entry, call == b"genesis")
            }
            (b"receive", [key, id, nullifier, nonce, target, parents @ ..]) => {
                let (key, target) = (words::bytes(key)?, words::bytes32(target)?);
                let entry = record(key, words::bytes32(id)?, words::bytes32(nullifier)?, words::list(parents)?);
                self.receive(WireTransaction::new(entry, words::u64(nonce)?), target)
            }
            (b"not-found", [id]) => {
                self.state.parent_not_found(&words::bytes32(id)?);
                SERVED.to_string()
            }
            (b"depth", [id]) => value(self.dag().depth(&words::bytes32(id)?)),
            (b"epoch", [id, length]) => self.epoch(words::bytes32(id)?, words::u64(length)?),
            (b"curvature", [one, other]) => {
                value(self.dag().discrete_curvature(&words::bytes32(one)?, &words::bytes32(other)?))
            }
            (b"path", [from, to, limit]) => {
                let (from, to) = (words::bytes32(from)?, words::bytes32(to)?);
                match words::u64(limit)? {
                    limit if limit <= PATH_LIMIT => value(self.dag().find_best_path_weight(&from, &to, limit as usize)),
                    _ => OUT_OF_RANGE.to_string(),
                }
            }
            (b"clear-curvatures", []) => {
                self.dag().clear_curvature_cache();
                SERVED.to_string()
            }
            _ => return self.reading(call, words),
        })
    }

    /// The calls that only read the store; any other word goes on to `figure`.
    fn reading(&mut self, call: Word, words: &[Word]) -> Option<String> {
        Some(match (call, words) {
            (b"cached-depth", [id]) => match self.dag().cached_depth(&words::bytes32(id)?) {
                Some(depth) => value(depth),
                None => value("none"),
            },
            (b"depth-from", parents) => match words::list(parents)? {
                list if list.len() <= LIST_LIMIT => value(self.dag().compute_depth_from_parents(&list)),
                _ => LIST_TOO_LONG.to_string(),
            },
            (b"frozen", [one, other]) => {
                yes_or_no(self.dag().is_curvature_frozen(&words::bytes32(one)?, &words::bytes32(other)?))
            }
            (b"contains", [id]) => yes_or_no(self.dag().contains(&words::bytes32(id)?)),
            (b"has", [id]) => yes_or_no(self.state.has_transaction(&words::bytes32(id)?)),
            (b"has-nullifier", [word]) => yes_or_no(self.dag().has_nullifier(&Nullifier(words::bytes32(word)?))),
            (b"get", [id]) => match self.state.get_transaction(&words::bytes32(id)?) {
                Some(wire) => {
                    let opening = format!("0 {} {}", hex(wire.tx.nullifier.as_bytes()), wire.nonce);
                    ids(&opening, &wire.tx.parents)
                }
                None => value("none"),
            },
            (b"neighbors", [id]) => ids(SERVED, self.dag().neighbors(&words::bytes32(id)?).iter()),
            (b"ancestors", [id, steps]) => {
                ids(SERVED, self.dag().ancestors(&words::bytes32(id)?, words::u32(steps)?).iter())
            }
            (b"descendants", [id]) => ids(SERVED, self.dag().descendants(&words::bytes32(id)?).iter()),
            (b"tips", []) => ids(SERVED, &self.state.tips()),
            (b"ids", []) => ids(SERVED, self.dag().transaction_ids()),
            (b"len", []) => value(self.state.transaction_count()),
            (b"pending", []) => value(self.state.pending_count()),
            _ => return figure(call, words),
        })
    }

    fn insert(&mut self, entry: Transaction, genesis: bool) -> String {
        if let Some(refusal) = refused(&entry) {
            return refusal;
        }
        if genesis {
            self.dag().insert_genesis(entry);
            return SERVED.to_string();
        }
        match self.dag().insert(entry) {
            Ok(()) => SERVED.to_string(),
            Err(error) => refusal(error),
        }
    }

    fn receive(&mut self, wire: WireTransaction, target: Bytes32) -> String {
        if let Some(refusal) = refused(&wire.tx) {
            return refusal;
        }
        self.target_place.set(&mut self.state, target);
        match self.state.receive_transaction(wire) {
            SyncResult::Inserted => "20".to_string(),
            SyncResult::AlreadyHave => "21".to_string(),
            SyncResult::AlreadyPending => "22".to_string(),
            SyncResult::InvalidPoW => "23".to_string(),
            SyncResult::BufferFull => "24".to_string(),
            SyncResult::NeedParents(parents) => ids("25", &parents),
        }
    }

    fn epoch(&mut self, id: Bytes32, length: u64) -> String {
        match length {
            0 => OUT_OF_RANGE.to_string(),
            Epoch::DEPTH_PER_EPOCH => value(self.dag().epoch(&id).0),
            _ => value(self.dag().depth(&id) / length),
        }
    }
}

fn in_range(curvature: i32) -> bool {
    (-SCALE..=SCALE).contains(&curvature)
}

/// The calls that need no store, and the product's own, which have no counterpart here.
fn figure(call: Word, words: &[Word]) -> Option<String> {
    Some(match (call, words) {
        (b"ratio", [number, divisor]) => value(fp_from_ratio(words::i32(number)?, words::i32(divisor)?)),
        (b"product", [one, other]) => value(fp_mul(words::i32(one)?, words::i32(other)?)),
        (b"alpha", [depth]) => value(effective_alpha(words::u64(depth)?)),
        (b"weight", [curvature]) => match words::i32(curvature)? {
            curvature if in_range(curvature) => value(TransactionDAG::new().curvature_weight(curvature)),
            _ => OUT_OF_RANGE.to_string(),
        },
        (b"weight-at", [curvature, depth]) => match (words::i32(curvature)?, words::u64(depth)?) {
            (curvature, depth) if in_range(curvature) => {
                value(TransactionDAG::new().curvature_weight_at_depth(curvature, depth))
            }
            _ => OUT_OF_RANGE.to_string(),
        },
        (b"sha3", [data]) => ids(SERVED, &[sha3_256(&words::bytes(data)?)]),
        (b"id", [key, nullifier]) => {
            let entry = record(words::bytes(key)?, [0; 32], words::bytes32(nullifier)?, vec![]);
            match refused(&entry) {
                Some(refusal) => refusal,
                None => ids(SERVED, &[entry.compute_id()]),
            }
        }
        (b"nullifier", [secret, epoch, nonce]) => {
            let (secret, epoch, nonce) = (words::bytes32(secret)?, Epoch(words::u64(epoch)?), words::bytes(nonce)?);
            ids(SERVED, &[Nullifier::compute(&secret, epoch, &nonce).0])
        }
        (b"work", [key, nullifier, nonce, target, parents @ ..]) => {
            let entry = record(words::bytes(key)?, [0; 32], words::bytes32(nullifier)?, words::list(parents)?);
            work(entry, words::u64(nonce)?, words::bytes32(target)?)
        }
        (b"names", [])
        | (b"save" | b"load" | b"strict-depth", [_])
        | (b"strict-curvature", [_, _])
        | (b"strict-path" | b"poke", [_, _, _])
        | (b"strict-insert", [_, _, _, ..]) => NONE_HERE.to_string(),
        _ => return None,
    })
}

/// The Rust's own header is private to its users, so this one is put together here: key, parents, nullifier.
fn work(entry: Transaction, nonce: u64, target: Bytes32) -> String {
    if let Some(refusal) = refused(&entry) {
        return refusal;
    }
    let header = [entry.ephemeral_pk.0, entry.parents.concat(), entry.nullifier.0.to_vec()].concat();
    yes_or_no(HelloWorldPoW { target }.validate(&header, nonce))
}
