//! trust-dns-proto on the files of inputs.py: trust FOLDER [--rounds N] [WORD]. It refuses some files, which then have
//! no line.

use std::hash::{Hash, Hasher};
use std::hint::black_box;
use std::path::Path;
use std::time::{Duration, Instant};
use trust_dns_proto::op::{Edns, Message, MessageType, Query};
use trust_dns_proto::rr::{Name, RData, Record, RecordType};
use trust_dns_proto::serialize::binary::{BinDecodable, BinDecoder, BinEncodable, BinEncoder};

struct Case {
    place: usize,
    octets: Vec<u8>,
}

fn read(path: &Path) -> Vec<Case> {
    let data = std::fs::read(path).unwrap();
    let word = |at: usize| u32::from_le_bytes(data[at..at + 4].try_into().unwrap()) as usize;
    let mut at = 4;
    (0..word(0))
        .map(|_| {
            let (place, len) = (word(at), word(at + 4));
            at += 8 + len;
            Case {
                place,
                octets: data[at - len..at].to_vec(),
            }
        })
        .collect()
}

/// `round` makes all calls of a file once, and prints how many were refused. The best turn counts.
///
/// Nothing is done for an operation that doesn't begin with WORD. With `--rounds N`, where another program counts
/// instructions, all calls are made so often, without measuring.
fn measure(op: &str, file: &str, calls: usize, mut round: impl FnMut() -> usize) {
    let words: Vec<_> = std::env::args().skip(2).collect();
    let (rounds, word) = match &words[..] {
        [flag, rounds, word @ ..] if flag == "--rounds" => (Some(rounds), word.first()),
        word => (None, word.first()),
    };
    if word.is_some_and(|word| !op.starts_with(word.as_str())) {
        return;
    }
    if let Some(rounds) = rounds {
        for _ in 0..rounds.parse().unwrap() {
            black_box(round());
        }
        return;
    }
    let start = Instant::now();
    if round() > 0 {
        return;
    }
    let once = start.elapsed().max(Duration::from_nanos(100));
    let repeat = (1_000_000 / once.as_nanos()).max(1) as usize;
    let mut best = f64::MAX;
    let begun = Instant::now();
    for turn in 0..300 {
        if turn >= 5 && begun.elapsed() > Duration::from_millis(500) {
            break;
        }
        let start = Instant::now();
        for _ in 0..repeat {
            black_box(round());
        }
        best = best.min(start.elapsed().as_nanos() as f64 / (repeat * calls) as f64);
    }
    println!("trust-dns\t{op}\t{file}\t{best:.1}\t-");
}

struct Fnv(u64);

impl Hasher for Fnv {
    fn finish(&self) -> u64 {
        self.0
    }

    fn write(&mut self, bytes: &[u8]) {
        for byte in bytes {
            self.0 = (self.0 ^ *byte as u64).wrapping_mul(0x100_0000_01b3);
        }
    }
}

fn name(octets: &[u8]) -> Name {
    Name::read(&mut BinDecoder::new(octets)).unwrap()
}

/// How many messages are written of the names of a case, as the others do in one call.
const PER_CALL: u16 = 16;

fn address_record(owner: &Name, number: u8) -> Record {
    Record::from_rdata(owner.clone(), 3600, RData::A([192, 0, 2, number].into()))
}

/// The message of a kind, of these names.
fn message(kind: &str, octets: &[u8]) -> Message {
    let mut decoder = BinDecoder::new(octets);
    let mut names = Vec::new();
    while !decoder.is_empty() {
        names.push(Name::read(&mut decoder).unwrap());
    }
    let mut message = Message::new();
    message.set_recursion_desired(true);
    message.add_query(Query::query(names[0].clone(), RecordType::A));
    match kind {
        "query" => {
            let mut edns = Edns::new();
            edns.set_max_payload(1232);
            message.set_edns(edns);
        }
        "answer" => {
            message.set_message_type(MessageType::Response);
            message.add_answers((0..10).map(|number| address_record(&names[0], number)));
        }
        _ => {
            message.set_message_type(MessageType::Response);
            for server in &names[2..] {
                message.add_name_server(Record::from_rdata(names[1].clone(), 3600, RData::NS(server.clone())));
                message.add_additional(address_record(server, 53));
            }
        }
    }
    message
}

/// The message with this identifier.
fn written(target: &mut Vec<u8>, message: &mut Message, id: u16) -> bool {
    target.clear();
    message.set_id(id);
    message.emit(&mut BinEncoder::new(target)).is_ok()
}

fn main() {
    let folder = std::env::args_os().nth(1).expect("usage: trust FOLDER [..]");
    let folder = Path::new(&folder);
    for file in ["typical.msg", "pointer.msg", "deep.msg", "worst.msg", "short.msg", "long.msg"] {
        let cases = read(&folder.join(file));
        measure("to_name", file, cases.len(), || {
            cases
                .iter()
                .filter(|case| {
                    let decoder = BinDecoder::new(black_box(&case.octets));
                    black_box(Name::read(&mut decoder.clone(case.place as u16))).is_err()
                })
                .count()
        });
    }
    for file in ["typical.names", "deep.names"] {
        let cases = read(&folder.join(file));
        let names: Vec<_> = cases.iter().map(|case| name(&case.octets)).collect();
        measure("check_eq", file, names.len() / 2, || {
            for pair in names.chunks_exact(2) {
                black_box(black_box(&pair[0]) == black_box(&pair[1]));
            }
            0
        });
        measure("check_cmp", file, names.len() / 2, || {
            for pair in names.chunks_exact(2) {
                black_box(black_box(&pair[0]).cmp(black_box(&pair[1])));
            }
            0
        });
        measure("check_hash", file, names.len(), || {
            for name in &names {
                let mut hash = Fnv(0);
                black_box(name).hash(&mut hash);
                black_box(hash.finish());
            }
            0
        });
        measure("check_show", file, names.len(), || {
            for name in &names {
                black_box(black_box(name).to_ascii());
            }
            0
        });
    }
    for file in ["typical.texts", "escaped.texts"] {
        let cases = read(&folder.join(file));
        measure("vec_from_str", file, cases.len(), || {
            cases
                .iter()
                .filter(|case| Name::from_ascii(std::str::from_utf8(black_box(&case.octets)).unwrap()).is_err())
                .count()
        });
    }
    for file in ["records-4.whole", "records-100.whole", "records-1000.whole"] {
        let cases = read(&folder.join(file));
        measure("record_data", file, cases.len(), || {
            cases
                .iter()
                .filter(|case| black_box(Message::from_vec(black_box(&case.octets))).is_err())
                .count()
        });
    }
    for kind in ["mixed", "hosts", "middles"] {
        for count in [10, 30, 100, 300, 1000, 3000, 10000] {
            let file = format!("{kind}-{count}.stream");
            let stream = &read(&folder.join(&file))[0].octets;
            let mut decoder = BinDecoder::new(stream);
            let names: Vec<_> = (0..count).map(|_| Name::read(&mut decoder).unwrap()).collect();
            measure("compress", &file, count, || {
                let mut target = Vec::with_capacity(65535);
                let mut encoder = BinEncoder::new(&mut target);
                names
                    .iter()
                    .filter(|name| black_box(name).emit(&mut encoder).is_err())
                    .count()
            });
        }
    }
    for kind in ["query", "answer", "referral"] {
        let file = format!("{kind}.writes");
        let cases = read(&folder.join(&file));
        let mut messages: Vec<_> = cases.iter().map(|case| message(kind, &case.octets)).collect();
        let mut target = Vec::with_capacity(512);
        measure(&format!("write_{kind}"), &file, cases.len() * usize::from(PER_CALL), || {
            let mut refused = 0;
            for message in &mut messages {
                for id in 0..PER_CALL {
                    refused += usize::from(!written(&mut target, message, id));
                    black_box(&target);
                }
            }
            refused
        });
    }
}
