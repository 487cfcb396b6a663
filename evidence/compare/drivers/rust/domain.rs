//! The Rust crate `domain`: its names. Its compressors belong to its messages, and aren't looked at here.

#[path = "line.rs"]
mod line;

use domain::base::name::{Name, ParsedName, ToName};
use octseq::parse::Parser;
use std::cmp::Ordering;
use std::str::FromStr;

struct Domain;

impl line::Library for Domain {
    type Name = Name<Vec<u8>>;

    const COMPOSES: bool = false;

    fn version() -> String {
        env!("PEER_VERSION").into()
    }

    fn read(message: &[u8], offset: usize) -> Option<(Self::Name, usize)> {
        let mut parser = Parser::from_ref(message);
        parser.advance(offset).ok()?;
        let name = ParsedName::parse(&mut parser).ok()?;
        Some((name.to_vec(), parser.pos()))
    }

    fn labels(name: &Self::Name) -> Vec<Vec<u8>> {
        name.iter().filter(|label| !label.is_root()).map(|label| label.as_slice().to_vec()).collect()
    }

    fn from_text(text: &str) -> Option<Self::Name> {
        Name::from_str(text).ok()
    }

    fn to_text(name: &Self::Name) -> String {
        name.fmt_with_dot().to_string()
    }

    fn compare(left: &Self::Name, right: &Self::Name) -> Ordering {
        left.name_cmp(right)
    }
}

fn main() {
    line::run::<Domain>();
}
