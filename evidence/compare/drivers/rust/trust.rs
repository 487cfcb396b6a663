//! trust-dns-proto

#[path = "line.rs"]
mod line;

use std::cmp::Ordering;
use trust_dns_proto::rr::Name;
use trust_dns_proto::serialize::binary::{BinDecodable, BinDecoder, BinEncodable, BinEncoder, EncodeMode};

struct Trust;

impl line::Library for Trust {
    type Name = Name;

    fn version() -> String {
        env!("PEER_VERSION").into()
    }

    fn read(message: &[u8], offset: usize) -> Option<(Name, usize)> {
        let mut decoder = BinDecoder::new(message).clone(u16::try_from(offset).ok()?);
        Some((Name::read(&mut decoder).ok()?, decoder.index()))
    }

    fn labels(name: &Name) -> Vec<Vec<u8>> {
        name.iter().map(|label| label.to_vec()).collect()
    }

    fn from_text(text: &str) -> Option<Name> {
        Name::from_ascii(text).ok()
    }

    fn to_text(name: &Name) -> String {
        name.to_ascii()
    }

    fn compare(left: &Name, right: &Name) -> Ordering {
        left.cmp(right)
    }

    fn compose(names: &[Name]) -> usize {
        let mut message = vec![0; 12];
        let mut encoder = BinEncoder::with_offset(&mut message, 12, EncodeMode::Normal);
        for name in names {
            if name.emit(&mut encoder).is_err() {
                break;
            }
        }
        encoder.offset() as usize
    }
}

fn main() {
    line::run::<Trust>();
}
