//! What a name server asks beside the calls: names and pairs of a table, what
//! became of a pair's keys, what a TKEY request asks for.

use crate::calls::{ensure, is_sized, read_query, Refusal};
use crate::names::{self, Name};
use crate::table::{Algorithm, Pair, Table};
use crate::wire::{Found, Message};

/// The number of the pair with this suffix.
pub fn pair_of_suffix(table: &Table, suffix: &[u8]) -> Result<u64, Refusal> {
    ensure(table.keeps_rules(), Refusal::Table)?;
    let index = table.find(suffix).ok_or(Refusal::NoPair)?;
    Ok(index as u64 + 1)
}

/// The number of the pair whose suffix follows the first label of a name.
pub fn pair_of_key(table: &Table, name: &[u8]) -> Result<u64, Refusal> {
    ensure(table.keeps_rules(), Refusal::Table)?;
    ensure(names::is_name(name), Refusal::Name)?;
    let suffix = names::after_first_label(name).ok_or(Refusal::NoPair)?;
    pair_of_suffix(table, suffix)
}

/// The name of a key that the pair issued, by its serial.
pub fn key_name(table: &Table, number: u64, serial: u64, room: usize) -> Result<Name, Refusal> {
    let pair = pair(table, number)?;
    ensure(1 <= serial && serial < pair.next_serial, Refusal::NoKey)?;
    let name = Name::of_key(serial, &pair.suffix);
    ensure(name.octets().len() <= room, Refusal::Room)?;
    Ok(name)
}

/// The pair with this number.
pub fn pair(table: &Table, number: u64) -> Result<&Pair, Refusal> {
    ensure(table.keeps_rules(), Refusal::Table)?;
    let index = table.index_of(number).ok_or(Refusal::NoPair)?;
    Ok(&table.pairs[index])
}

/// Serials: made, adopted, ended and dropped between two states of a pair; 0
/// for none.
pub fn moves(before: &Pair, after: &Pair) -> [u64; 4] {
    let serials = |pair: &Pair| {
        let of = |key: Option<&crate::Key>| key.map_or(0, |key| key.serial);
        [of(pair.adopted()), of(pair.waiting())]
    };
    let ([adopted, waiting], now) = (serials(before), serials(after));
    let if_so = |serial: u64, is_so: bool| if is_so { serial } else { 0 };
    let is_new = |serial: &u64| ![0, adopted, waiting].contains(serial);
    [
        now.into_iter().filter(is_new).max().unwrap_or(0),
        if_so(waiting, waiting == now[0]),
        if_so(adopted, !now.contains(&adopted)),
        if_so(waiting, !now.contains(&waiting)),
    ]
}

/// What a TKEY asks for; octets as they stand in the message.
#[derive(Clone, Copy, Debug, PartialEq, Eq)]
pub struct Asked<'a> {
    pub mode: u16,
    pub algorithm: Option<Algorithm>,
    pub inception: u32,
    pub expiration: u32,
    pub key_data: &'a [u8],
    /// The data of the only KEY record of the additional section.
    pub key: Option<&'a [u8]>,
}

/// What a message asks for, if it is a TKEY request with one TKEY, well placed
/// and well formed. Refused as a look at it is.
pub fn asks(octets: &[u8]) -> Result<Option<Asked<'_>>, Refusal> {
    ensure(is_sized(octets), Refusal::Size)?;
    let message = read_query(octets)?;
    Ok(asked(&message).filter(|asked| asked.mode != 0))
}

fn asked<'a>(message: &Message<'a>) -> Option<Asked<'a>> {
    let tkey = message.is_tkey_request().then(|| message.tkey())??;
    Some(Asked {
        mode: tkey.mode,
        algorithm: Algorithm::from_name(tkey.algorithm),
        inception: tkey.inception,
        expiration: tkey.expiration,
        key_data: tkey.key_data,
        key: match message.keys {
            Found::One(record) => Some(record.data()),
            _ => None,
        },
    })
}
