//! Judging. 01 "Judging, first that applies"; RFC 8945 §5.2, 002 §2.1 to §2.5,
//! CR 10. Nothing is changed here.

use crate::names;
use crate::table::{Algorithm, Key, Pair, Table, SERIAL_LIMIT};
use crate::wire::{Found, Message, OldKey, Record, Scheme, Task, Tkey, Tsig};

// RCODEs (RFC 1035 §4.1.1, RFC 8945 §3); 1 and 2 are TKEY errors too.
const FORMERR: u16 = 1;
const SERVFAIL: u16 = 2;
const REFUSED: u16 = 5;
const NOTAUTH: u16 = 9;

// TSIG and TKEY errors (RFC 8945 §3, RFC 2930 §2.6; 01 "Reading").
const BADSIG: u16 = 16;
const BADKEY: u16 = 17;
const BADTIME: u16 = 18;
const BADMODE: u16 = 19;
const BADNAME: u16 = 20;
const BADALG: u16 = 21;
pub const PARTIAL_REVOKE: u16 = 3841;

/// What a message call takes beside the table and the reply buffer.
pub struct Case<'c, 'a> {
    pub given: &'c Given<'a>,
    pub message: &'c Message<'a>,
}

/// What the caller of a message call gives with the message.
#[derive(Clone, Copy, Debug, PartialEq, Eq)]
pub struct Given<'a> {
    pub time: u64,
    /// The verdict on the MAC.
    pub good: bool,
    /// The offered key data.
    pub offer: &'a [u8],
    /// CR 10, the keying verdict: whether the request's KEY fits.
    pub fits: bool,
    /// CR 10, the lent KEY record.
    pub record: &'a [u8],
}

impl<'a> Given<'a> {
    /// No KEY fits, and no record is lent: server assignment needs neither.
    pub fn new(time: u64, good: bool, offer: &'a [u8]) -> Given<'a> {
        Given {
            time,
            good,
            offer,
            fits: false,
            record: &[],
        }
    }
}

/// The key that a TSIG gives, and the index of its pair.
#[derive(Clone, Copy, Debug)]
pub struct Signer {
    pub index: usize,
    pub key: Key,
}

/// 01 "Judging" steps 1 to 7: a reply without a TKEY record.
#[derive(Clone, Copy, Debug, PartialEq, Eq)]
pub struct Denial {
    pub rcode: u16,
    /// The TSIG error or 0.
    pub error: u16,
}

/// What is done with a message that is not denied. It lives once a call, on
/// the stack.
#[allow(clippy::large_enum_variant)]
#[derive(Debug)]
pub enum Ruling<'a> {
    /// Steps 2 and 8: no reply; the skew is 0 if it is unsigned.
    PassUp { skew: i64 },
    /// Step 9 to the end: a reply with a TKEY record, about the pair at this
    /// index.
    Tkey(usize, Tkey<'a>, Outcome<'a>),
}

/// 01 "Renewal", "Adoption" and "Deletion": what comes of a TKEY request.
#[derive(Clone, Copy, Debug)]
pub enum Outcome<'a> {
    /// A TKEY error.
    Failed(u16),
    Renewed(Grant<'a>),
    Adopted,
    /// The adopted key was asked for: no change.
    AlreadyAdopted,
    Deleted,
    WaitingDeleted,
}

/// 01 "Renewal": a renewal that is granted.
#[derive(Clone, Copy, Debug)]
pub struct Grant<'a> {
    pub scheme: Scheme,
    /// The new waiting key.
    pub waiting: Key,
    /// The KEY record of the request, which is echoed.
    pub echo: Record<'a>,
}

/// 01 "Judging": RCODE, and a TSIG error or 0.
fn deny<T>(rcode: u16, error: u16) -> Result<T, Denial> {
    Err(Denial { rcode, error })
}

/// 01 "The desk's business": the adopted key, in force or not, whose name and
/// algorithm the TSIG gives. Only the pair whose suffix follows the first label
/// of the TSIG's name can have it.
pub fn find_signer(table: &Table, tsig: &Tsig) -> Option<Signer> {
    let name = tsig.name.octets();
    let index = table.find(names::after_first_label(name)?)?;
    let pair = &table.pairs[index];
    let key = *pair.adopted()?;
    let is_signer = pair.is_key(&key, name, tsig.algorithm);
    is_signer.then_some(Signer { index, key })
}

/// 01 "Judging": the key that passes step 3, and the first step that applies.
pub fn judge<'a>(
    table: &Table,
    case: &Case<'_, 'a>,
) -> (Option<Signer>, Result<Ruling<'a>, Denial>) {
    match authenticate(table, case) {
        Err(denial) => (None, Err(denial)),
        Ok(None) => (None, Ok(Ruling::PassUp { skew: 0 })),
        Ok(Some((signer, tsig))) => {
            let ruling = check_signature(case, &signer.key, &tsig)
                .and_then(|()| judge_signed(table, case, signer, &tsig));
            (Some(signer), ruling)
        }
    }
}

/// 01 "Judging" steps 1 to 3; `None` for an ordinary unsigned message.
fn authenticate<'a>(
    table: &Table,
    case: &Case<'_, 'a>,
) -> Result<Option<(Signer, Tsig<'a>)>, Denial> {
    let tsig = match case.message.tsig() {
        Err(_) => return deny(FORMERR, 0),
        Ok(None) if case.message.is_tkey_request() => return deny(REFUSED, 0),
        Ok(None) => return Ok(None),
        Ok(Some(tsig)) => tsig,
    };
    match find_signer(table, &tsig) {
        Some(signer) if signer.key.is_in_force(case.given.time) => Ok(Some((signer, tsig))),
        _ => deny(NOTAUTH, BADKEY),
    }
}

/// 01 "Judging" steps 4 and 5.
fn check_signature(case: &Case, key: &Key, tsig: &Tsig) -> Result<(), Denial> {
    let output = key.algorithm.output();
    if tsig.mac.len() > output || tsig.mac.len() < output / 2 {
        return deny(FORMERR, 0);
    }
    if !case.given.good {
        return deny(NOTAUTH, BADSIG);
    }
    if tsig.time_signed.abs_diff(case.given.time) > u64::from(tsig.fudge) {
        return deny(NOTAUTH, BADTIME);
    }
    Ok(())
}

/// 01 "Judging" steps 6 to 9.
fn judge_signed<'a>(
    table: &Table,
    case: &Case<'_, 'a>,
    signer: Signer,
    tsig: &Tsig,
) -> Result<Ruling<'a>, Denial> {
    let is_request = case.message.is_tkey_request();
    let tkey = is_request.then(|| case.message.tkey()).flatten();
    if is_request && tkey.is_none() {
        return deny(FORMERR, 0);
    }
    let task = tkey.as_ref().map(|tkey| tkey.task);
    let may_be_late = matches!(task, Some(Task::Renewal(..) | Task::Adoption(_)));
    if case.given.time >= signer.key.partial && !may_be_late {
        return deny(NOTAUTH, PARTIAL_REVOKE);
    }
    let Some(tkey) = tkey else {
        let skew = skew(tsig.time_signed, case.given.time);
        return Ok(Ruling::PassUp { skew });
    };
    let pair = &table.pairs[signer.index];
    let outcome = match tkey.task {
        Task::Unsupported => Outcome::Failed(BADMODE),
        Task::Renewal(scheme, old) => match renewal(case, pair, &signer.key, &tkey, scheme, old) {
            Ok(grant) => Outcome::Renewed(grant),
            Err(error) => Outcome::Failed(error),
        },
        Task::Adoption(old) => adoption(pair, &signer.key, &tkey, old),
        Task::Deletion => deletion(pair, &signer.key, &tkey),
    };
    Ok(Ruling::Tkey(signer.index, tkey, outcome))
}

/// 01 "Judging" step 8: time signed minus time, both below 2^48.
fn skew(time_signed: u64, time: u64) -> i64 {
    time_signed as i64 - time as i64
}

/// 02 CR 5: seconds from inception forward to expiration on a ring of 2^32,
/// under half of it. RFC 2930 §2.4, RFC 1982 §3.2.
fn is_good_interval(inception: u32, expiration: u32) -> bool {
    const RING: u64 = 1 << 32;
    let forward = (RING + u64::from(expiration) - u64::from(inception)) % RING;
    forward != 0 && forward < RING / 2
}

/// 01 "Renewal"; 002 §2.3 and §2.5, CR 10: one rule for the three schemes, or
/// the first TKEY error.
fn renewal<'a>(
    case: &Case<'_, 'a>,
    pair: &Pair,
    signing: &Key,
    tkey: &Tkey,
    scheme: Scheme,
    old: OldKey,
) -> Result<Grant<'a>, u16> {
    if !pair.is_key(signing, old.name, old.algorithm) {
        return Err(BADKEY);
    }
    let Found::One(echo) = case.message.keys else {
        return Err(FORMERR);
    };
    check_keying(scheme, case.given.fits)?;
    let algorithm = Algorithm::from_name(tkey.algorithm).ok_or(BADALG)?;
    if !is_good_interval(tkey.inception, tkey.expiration) {
        return Err(BADTIME);
    }
    let lacks_offer = uses_offer(scheme) && case.given.offer.is_empty();
    if pair.next_serial >= SERIAL_LIMIT || lacks_offer {
        return Err(SERVFAIL);
    }
    Ok(Grant {
        scheme,
        waiting: pair.next_key(algorithm, case.given.time),
        echo,
    })
}

/// CR 10: a KEY that does not fit is an incompatible public key (002 §2.5.1),
/// or one whose private key we have not (002 §2.5.3). In server assignment it
/// is not looked at.
fn check_keying(scheme: Scheme, fits: bool) -> Result<(), u16> {
    match scheme {
        Scheme::DiffieHellman if !fits => Err(BADKEY),
        Scheme::ResolverAssigned if !fits => Err(FORMERR),
        _ => Ok(()),
    }
}

/// CR 10: whether the offer is the reply's key data, as the server's nonce or
/// its secret. A resolver brings its own.
pub fn uses_offer(scheme: Scheme) -> bool {
    scheme != Scheme::ResolverAssigned
}

/// 01 "Adoption"; 002 §2.4. The signing key is the adopted one.
fn adoption<'a>(pair: &Pair, signing: &Key, tkey: &Tkey, old: OldKey) -> Outcome<'a> {
    let is_asked = |key: &Key| pair.is_key(key, tkey.name.octets(), tkey.algorithm);
    if is_asked(signing) {
        Outcome::AlreadyAdopted
    } else if !pair.waiting().is_some_and(is_asked) {
        Outcome::Failed(BADNAME)
    } else if !pair.is_key(signing, old.name, old.algorithm) {
        Outcome::Failed(BADKEY)
    } else {
        Outcome::Adopted
    }
}

/// 01 "Deletion"; RFC 2930 §4.2. Only NAME counts (ruling 8).
fn deletion<'a>(pair: &Pair, signing: &Key, tkey: &Tkey) -> Outcome<'a> {
    let is_asked = |key: &Key| pair.is_name_of(key, tkey.name.octets());
    if is_asked(signing) {
        Outcome::Deleted
    } else if pair.waiting().is_some_and(is_asked) {
        Outcome::WaitingDeleted
    } else {
        Outcome::Failed(BADNAME)
    }
}
