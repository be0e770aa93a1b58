//! Reads a script: its lines become headers and calls.
use crate::calls::{self, Call};
use crate::operands::Words;
use crate::session::Answer;
use wasmi_core::{RawVal, V128};

#[derive(Default)]
pub struct Headers {
    pub meter: Option<Option<u32>>,
    pub quota: Option<(u64, u64)>,
    pub answers: Option<Vec<Answer>>,
    pub region: Option<(usize, u8)>,
    /// What a `reserve` line says. It changes no reply.
    pub reserve: Option<[u64; 5]>,
    pub tenants: Option<(usize, u64, u64)>,
}

impl Headers {
    /// The greatest numbers of bytes and of elements that may be held, where a header names them.
    pub fn caps(&self) -> Option<(u64, u64)> {
        self.quota.or(self.tenants.map(|(_, bytes, elements)| (bytes, elements)))
    }

    /// How many slots a `reserve` line asks for, of all kinds and for all tenants.
    pub fn slots_asked(&self) -> u64 {
        let parties = self.tenants.map_or(1, |(count, ..)| count as u64);
        self.reserve.unwrap_or_default().into_iter().fold(0, u64::saturating_add).saturating_mul(parties)
    }

    /// True where so many slots of a kind are asked for that no machine has room for them.
    pub fn has_hopeless_slots(&self) -> bool {
        self.reserve.unwrap_or_default().into_iter().any(|count| count > isize::MAX as u64)
    }
}

#[derive(Default)]
pub struct Script {
    pub headers: Headers,
    /// Each call with the tenant whose it is.
    pub calls: Vec<(usize, Call)>,
}

fn header(first: &[u8], mut w: Words<'_>, h: &mut Headers) -> Option<()> {
    let limited = h.quota.is_some() || h.answers.is_some() || h.tenants.is_some();
    match first {
        b"meter" if h.meter.is_none() => {
            let meter = match w.word()? {
                b"on" => Some(w.num()?),
                b"off" => None,
                _ => return None,
            };
            w.end()?;
            h.meter = Some(meter);
        }
        b"quota" if !limited => {
            let quota = (w.num()?, w.num()?);
            w.end()?;
            h.quota = Some(quota);
        }
        b"answers" if !limited => {
            let words: Option<Vec<Answer>> =
                w.0.map(|word| match word {
                    b"permit" => Some(Answer::Permit),
                    b"deny" => Some(Answer::Deny),
                    b"error" => Some(Answer::Error),
                    b"complain" => Some(Answer::Complain),
                    _ => None,
                })
                .collect();
            h.answers = Some(words?);
        }
        b"region" if h.region.is_none() && h.tenants.is_none() => {
            let region = (w.num()?, w.num()?);
            w.end()?;
            h.region = Some(region);
        }
        b"reserve" if h.reserve.is_none() => {
            let slots = [w.num()?, w.num()?, w.num()?, w.num()?, w.num()?];
            w.end()?;
            h.reserve = Some(slots);
        }
        b"tenants" if !limited && h.region.is_none() => {
            let tenants: (usize, u64, u64) = (w.num()?, w.num()?, w.num()?);
            w.end()?;
            if !(1..=1024).contains(&tenants.0) {
                return None;
            }
            h.tenants = Some(tenants);
        }
        _ => return None,
    }
    Some(())
}

/// The call of a command, of which the first word is taken.
fn command(first: &[u8], words: &mut Words<'_>) -> Option<Call> {
    // The only word after which another one says what is called.
    let begin = match first {
        b"drop" => match words.word()? {
            b"memory" => b"drop memory",
            b"table" => &b"drop table"[..],
            _ => return None,
        },
        word => word,
    };
    calls::command(begin, words).filter(has_its_lanes)
}

/// Whether there are the lanes that a call names.
fn has_its_lanes(call: &Call) -> bool {
    let vector = V128::from(0);
    match *call {
        Call::Extract { op, lane, .. } => op(vector, lane).is_some(),
        Call::Replace { op, lane, .. } => op(vector, lane, RawVal::from_bits64(0)).is_some(),
        Call::LoadLane { op, lane, .. } => op(&[], 0, 0, vector, lane).is_some(),
        Call::StoreLane { op, lane, .. } => op(&mut [], 0, 0, vector, lane).is_some(),
        Call::Shuffle { lanes, .. } => lanes.iter().all(|lane| *lane < 32),
        _ => true,
    }
}

/// The parsed script, or the number of its first bad line, counted from 1.
pub fn parse(text: &[u8]) -> Result<Script, usize> {
    let mut script = Script::default();
    let (mut in_commands, mut tenant) = (false, 0);
    for (i, line) in text.split(|&b| b == b'\n').enumerate() {
        let words: Vec<&[u8]> = line.split(|&b| b == b' ').filter(|w| !w.is_empty()).collect();
        if words.is_empty() {
            continue;
        }
        let bad = i + 1;
        let mut w = Words(words.into_iter());
        let first = w.word().ok_or(bad)?;
        if matches!(first, b"meter" | b"quota" | b"answers" | b"region" | b"reserve" | b"tenants") {
            if in_commands {
                return Err(bad);
            }
            header(first, w, &mut script.headers).ok_or(bad)?;
            continue;
        }
        in_commands = true;
        if first == b"as" {
            let named: usize = w.num().ok_or(bad)?;
            w.end().ok_or(bad)?;
            let tenants = script.headers.tenants.map_or(0, |t| t.0);
            if named >= tenants {
                return Err(bad);
            }
            tenant = named;
            continue;
        }
        let call = command(first, &mut w).ok_or(bad)?;
        w.end().ok_or(bad)?;
        script.calls.push((tenant, call));
    }
    Ok(script)
}
