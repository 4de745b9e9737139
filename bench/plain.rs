//! A host of validators of the Stellar Consensus Protocol in plain Rust, as a measure for scphost. `bench/table` builds
//! it, runs both over the same input, and holds what they print against each other.
//!
//! It has the commands `run FILE`, `table FILE`, `compare FILE FILE NET SLOT NODE` and `serve`, on one thread, and prints
//! what scphost prints. Nothing is proved of it. It leaves out workers, journals, questions and options, the report of a
//! closure and crowds, reasons of bad lines, and refusals for want of memory. A script that is not compared keeps no
//! history.
//!
//! What it does to be quick, and no more: names are numbered within a slot and sets of them are bits, equal slices are
//! kept once, senders who say the same are counted together, whom a node reaches is found anew only where slices change,
//! and rules run only where their kind of row changed.

use std::collections::{BTreeMap, HashMap, HashSet};
use std::fmt::{self, Display, Formatter, Write as _};
use std::io::{self, BufRead, BufReader, BufWriter, Write};
use std::process::exit;
use std::rc::Rc;
use std::str::FromStr;

// ---- Words.

#[derive(Clone, Copy, PartialEq, Eq, PartialOrd, Ord, Hash)]
struct Name([u8; 32]);

type Value = Rc<[u8]>;

/// Ordered by counter, then by value.
#[derive(Clone, PartialEq, Eq, PartialOrd, Ord)]
struct Ballot {
    counter: u32,
    value: Value,
}

/// A threshold over members, each of which is a name or again such a set.
#[derive(PartialEq, Eq, Hash)]
struct Tree {
    threshold: u8,
    members: Vec<Member>,
}

#[derive(PartialEq, Eq, Hash)]
enum Member {
    Node(Name),
    Set(Tree),
}

const MOST_NAMES: usize = 256;
const MOST_MEMBERS: usize = 64;
const MOST_LEVELS: usize = 8;
const MOST_VALUES: usize = 16;
const MOST_BYTES: usize = 256;

fn is_plain(bytes: &[u8]) -> bool {
    !bytes.is_empty() && bytes.iter().all(u8::is_ascii_alphanumeric)
}

fn number<T: FromStr>(word: &str) -> Option<T> {
    let is_spelled = word.bytes().all(|byte| byte.is_ascii_digit()) && (word == "0" || !word.starts_with('0'));
    is_spelled.then(|| word.parse().ok()).flatten()
}

fn number_within(word: &str, least: u64, most: u64) -> Option<u64> {
    number(word).filter(|it| (least..=most).contains(it))
}

fn hex(word: &str) -> Option<Vec<u8>> {
    let digit = |byte: u8| match byte {
        b'0'..=b'9' => Some(byte - b'0'),
        b'a'..=b'f' => Some(byte - b'a' + 10),
        _ => None,
    };
    let pairs = word.as_bytes().chunks(2);
    pairs.map(|pair| Some(digit(pair[0])? << 4 | digit(*pair.get(1)?)?)).collect()
}

fn name(word: &str) -> Option<Name> {
    if word.len() == 64 {
        return Some(Name(hex(word)?.try_into().ok()?));
    }
    let mut name = [0; 32];
    name.get_mut(..word.len())?.copy_from_slice(word.as_bytes());
    is_plain(word.as_bytes()).then_some(Name(name))
}

/// The bytes of a value, of which there may be none or too many.
fn any_value(word: &str) -> Option<Vec<u8>> {
    match word.strip_prefix('#') {
        Some(digits) => hex(digits),
        None => (is_plain(word.as_bytes()) && word.len() <= MOST_BYTES).then(|| word.into()),
    }
}

fn value(word: &str) -> Option<Value> {
    any_value(word).filter(|it| (1..=MOST_BYTES).contains(&it.len())).map(Value::from)
}

fn ballot(word: &str) -> Option<Ballot> {
    let (counter, its) = word.split_once(':')?;
    Some(Ballot { counter: number(counter)?, value: value(its)? })
}

fn tree(word: &str) -> Option<Rc<Tree>> {
    let (mut rest, mut names) = (word, Vec::new());
    let tree = set_in(&mut rest, MOST_LEVELS, &mut names)?;
    (rest.is_empty() && names.len() <= MOST_NAMES && !has_twins(&names)).then(|| Rc::new(tree))
}

fn set_in<'a>(rest: &mut &'a str, levels: usize, names: &mut Vec<Name>) -> Option<Tree> {
    let (threshold, after) = rest.split_once('[')?;
    let (threshold, mut members) = (number(threshold)?, Vec::new());
    *rest = after;
    loop {
        let end = rest.bytes().position(|byte| matches!(byte, b'[' | b',' | b']'))?;
        if rest.as_bytes()[end] == b'[' {
            members.push(Member::Set(set_in(rest, levels.checked_sub(1)?, names)?));
        } else {
            let name = name(&rest[..end])?;
            names.push(name);
            members.push(Member::Node(name));
            *rest = &rest[end..];
        }
        let next = *rest.as_bytes().first()?;
        *rest = &rest[1..];
        match next {
            b',' => {}
            b']' => break,
            _ => return None,
        }
    }
    let is_set = 1 <= threshold && threshold as usize <= members.len() && members.len() <= MOST_MEMBERS;
    is_set.then_some(Tree { threshold, members })
}

fn has_twins(names: &[Name]) -> bool {
    let mut sorted = names.to_vec();
    sorted.sort_unstable();
    sorted.windows(2).any(|pair| pair[0] == pair[1])
}

impl Tree {
    fn names(&self, into: &mut Vec<Name>) {
        for member in &self.members {
            match member {
                Member::Node(name) => into.push(*name),
                Member::Set(tree) => tree.names(into),
            }
        }
    }

    fn levels(&self) -> usize {
        let inner =
            self.members.iter().map(|member| if let Member::Set(tree) = member { 1 + tree.levels() } else { 0 });
        inner.max().unwrap_or(0)
    }

    /// How many bytes the set has in an envelope.
    fn size(&self) -> usize {
        let member = |member: &Member| if let Member::Set(tree) = member { 1 + tree.size() } else { 33 };
        2 + self.members.iter().map(member).sum::<usize>()
    }
}

fn write_hex(f: &mut Formatter, bytes: &[u8]) -> fmt::Result {
    bytes.iter().try_for_each(|byte| write!(f, "{byte:02x}"))
}

impl Display for Name {
    fn fmt(&self, f: &mut Formatter) -> fmt::Result {
        let length = self.0.iter().rposition(|byte| *byte != 0).map_or(0, |last| last + 1);
        match std::str::from_utf8(&self.0[..length]) {
            Ok(word) if is_plain(word.as_bytes()) => f.write_str(word),
            _ => write_hex(f, &self.0),
        }
    }
}

/// A value in its printed form.
struct Printed<'a>(&'a Value);

impl Display for Printed<'_> {
    fn fmt(&self, f: &mut Formatter) -> fmt::Result {
        match std::str::from_utf8(self.0) {
            Ok(word) if is_plain(self.0) => f.write_str(word),
            _ => f.write_char('#').and_then(|()| write_hex(f, self.0)),
        }
    }
}

impl Display for Ballot {
    fn fmt(&self, f: &mut Formatter) -> fmt::Result {
        write!(f, "{}:{}", self.counter, Printed(&self.value))
    }
}

impl Display for Tree {
    fn fmt(&self, f: &mut Formatter) -> fmt::Result {
        write!(f, "{}[", self.threshold)?;
        for (place, member) in self.members.iter().enumerate() {
            if place > 0 {
                f.write_char(',')?;
            }
            match member {
                Member::Node(name) => name.fmt(f)?,
                Member::Set(tree) => tree.fmt(f)?,
            }
        }
        f.write_char(']')
    }
}

// ---- Statements.

/// Sets of values, ascending.
#[derive(Clone, Default, PartialEq, Eq, PartialOrd, Ord)]
struct Nomination {
    voted: Vec<Value>,
    accepted: Vec<Value>,
}

/// Ballot statements are ordered by kind, then by their fields: a greater one is newer.
#[derive(Clone, PartialEq, Eq, PartialOrd, Ord)]
enum Statement {
    Nominate(Nomination),
    Prepare { ballot: Ballot, prepared: Option<Ballot>, aborted: u32, high: u32, low: u32 },
    Commit { ballot: Ballot, prepared: u32, high: u32, low: u32 },
    Externalize { commit: Ballot, high: u32 },
}

/// How far a statement goes for a claim.
#[derive(Clone, Copy, PartialEq, Eq, PartialOrd, Ord)]
enum Level {
    Nothing,
    Votes,
    Accepts,
}
use Level::{Accepts, Nothing, Votes};

/// The two kinds of rows of a sender.
const NOMINATIONS: usize = 0;
const BALLOTS: usize = 1;

/// A ballot that a statement names, or that is tried.
type Tried<'a> = (u32, &'a Value);

impl Nomination {
    fn values(&self) -> impl Iterator<Item = &Value> {
        self.voted.iter().chain(&self.accepted)
    }

    fn level(&self, value: &Value) -> Level {
        match () {
            () if self.accepted.contains(value) => Accepts,
            () if self.voted.contains(value) => Votes,
            () => Nothing,
        }
    }

    fn contains(&self, other: &Nomination) -> bool {
        other.voted.iter().all(|value| self.voted.contains(value))
            && other.accepted.iter().all(|value| self.accepted.contains(value))
    }
}

impl Statement {
    fn kind(&self) -> usize {
        if matches!(self, Statement::Nominate(_)) { NOMINATIONS } else { BALLOTS }
    }

    fn is_newer(&self, old: &Statement) -> bool {
        match (self, old) {
            (Statement::Nominate(new), Statement::Nominate(old)) => new != old && new.contains(old),
            (_, Statement::Externalize { .. }) => false,
            _ => self > old,
        }
    }

    fn is_well_formed(&self) -> bool {
        let ascends = |values: &[Value]| values.len() <= MOST_VALUES && values.windows(2).all(|pair| pair[0] < pair[1]);
        match self {
            Statement::Nominate(its) => ascends(&its.voted) && ascends(&its.accepted) && its.values().next().is_some(),
            Statement::Prepare { ballot, prepared, aborted, high, low } => {
                let is_below = prepared.as_ref().is_none_or(|prepared| prepared <= ballot);
                is_below && ballot.counter >= 1 && *aborted <= ballot.counter && low <= high && *high <= ballot.counter
            }
            Statement::Commit { ballot, high, low, .. } => 1 <= *low && low <= high && *high <= ballot.counter,
            Statement::Externalize { commit, high } => 1 <= commit.counter && commit.counter <= *high,
        }
    }

    fn nomination(&self) -> Option<&Nomination> {
        if let Statement::Nominate(its) = self { Some(its) } else { None }
    }

    fn on_value(&self, value: &Value) -> Level {
        self.nomination().map_or(Nothing, |its| its.level(value))
    }

    fn on_prepare(&self, (counter, value): Tried) -> Level {
        match self {
            Statement::Nominate(_) => Nothing,
            Statement::Prepare { ballot, prepared, aborted, .. } => match prepared {
                _ if counter < *aborted => Accepts,
                Some(prepared) if counter <= prepared.counter && prepared.value == *value => Accepts,
                _ if counter <= ballot.counter && ballot.value == *value => Votes,
                _ => Nothing,
            },
            Statement::Commit { ballot, .. } if ballot.value != *value => Nothing,
            Statement::Commit { prepared, .. } => {
                if counter <= *prepared {
                    Accepts
                } else {
                    Votes
                }
            }
            Statement::Externalize { commit, .. } => {
                if commit.value == *value {
                    Accepts
                } else {
                    Nothing
                }
            }
        }
    }

    /// How far it goes for committing the value at all counters from one to another.
    fn on_commit(&self, value: &Value, from: u32, to: u32) -> Level {
        match self {
            Statement::Prepare { ballot, high, low, .. }
                if 1 <= *low && *low <= from && to <= *high && ballot.value == *value =>
            {
                Votes
            }
            Statement::Commit { ballot, high, low, .. } if *low <= from && ballot.value == *value => {
                if to <= *high {
                    Accepts
                } else {
                    Votes
                }
            }
            Statement::Externalize { commit, .. } if commit.counter <= from && commit.value == *value => Accepts,
            _ => Nothing,
        }
    }

    /// The ballots that are to be tried where it stands.
    fn named(&self) -> impl Iterator<Item = Tried<'_>> {
        let (first, second, third) = match self {
            Statement::Nominate(_) => (None, None, None),
            Statement::Prepare { ballot, prepared, .. } => {
                (Some((ballot.counter, &ballot.value)), prepared.as_ref().map(|it| (it.counter, &it.value)), None)
            }
            Statement::Commit { ballot, prepared, high, .. } => {
                (Some((ballot.counter, &ballot.value)), Some((*prepared, &ballot.value)), Some((*high, &ballot.value)))
            }
            Statement::Externalize { commit, high } => {
                (Some((commit.counter, &commit.value)), Some((*high, &commit.value)), None)
            }
        };
        [first, second, third].into_iter().flatten().filter(|(counter, _)| *counter >= 1)
    }

    /// The counters at which a commit is to be tried, each with the value.
    fn commit_counters(&self) -> impl Iterator<Item = Tried<'_>> {
        let found = match self {
            Statement::Nominate(_) => None,
            Statement::Prepare { ballot, high, low, .. } | Statement::Commit { ballot, high, low, .. } => {
                Some((*low, *high, &ballot.value))
            }
            Statement::Externalize { commit, high } => Some((commit.counter, *high, &commit.value)),
        };
        let both = found.into_iter().flat_map(|(low, high, value)| [(low, value), (high, value)]);
        both.filter(|(counter, _)| *counter >= 1)
    }

    /// The counter of its ballot. That of a decision counts as infinite.
    fn counter(&self) -> u64 {
        match self {
            Statement::Nominate(_) => 0,
            Statement::Prepare { ballot, .. } | Statement::Commit { ballot, .. } => ballot.counter.into(),
            Statement::Externalize { .. } => u64::MAX,
        }
    }

    /// How many bytes it has in an envelope.
    fn size(&self) -> usize {
        let values = |values: &[Value]| 1 + values.iter().map(|value| 2 + value.len()).sum::<usize>();
        let ballot_size = |ballot: &Ballot| 6 + ballot.value.len();
        match self {
            Statement::Nominate(its) => values(&its.voted) + values(&its.accepted),
            Statement::Prepare { ballot, prepared, .. } => {
                ballot_size(ballot) + 13 + prepared.as_ref().map_or(0, ballot_size)
            }
            Statement::Commit { ballot, .. } => ballot_size(ballot) + 12,
            Statement::Externalize { commit, .. } => ballot_size(commit) + 4,
        }
    }
}

fn statement(word: &str) -> Option<Statement> {
    let (kind, inside) = word.strip_suffix(')')?.split_once('(')?;
    let values = |word: &str| if word.is_empty() { Some(Vec::new()) } else { word.split('+').map(value).collect() };
    let mut parts = inside.split(',');
    let mut next = || parts.next();
    let statement = match kind {
        "nom" => {
            let (voted, accepted) = inside.split_once('|')?;
            return Some(Statement::Nominate(Nomination { voted: values(voted)?, accepted: values(accepted)? }))
                .filter(Statement::is_well_formed);
        }
        "prep" => Statement::Prepare {
            ballot: ballot(next()?)?,
            prepared: next().and_then(|word| if word == "-" { Some(None) } else { ballot(word).map(Some) })?,
            aborted: number(next()?)?,
            high: number(next()?)?,
            low: number(next()?)?,
        },
        "comm" => Statement::Commit {
            ballot: ballot(next()?)?,
            prepared: number(next()?)?,
            high: number(next()?)?,
            low: number(next()?)?,
        },
        "ext" => Statement::Externalize { commit: ballot(next()?)?, high: number(next()?)? },
        _ => return None,
    };
    (parts.next().is_none() && statement.is_well_formed()).then_some(statement)
}

impl Display for Statement {
    fn fmt(&self, f: &mut Formatter) -> fmt::Result {
        let joined = |f: &mut Formatter, values: &[Value]| {
            values
                .iter()
                .enumerate()
                .try_for_each(|(place, value)| write!(f, "{}{}", if place > 0 { "+" } else { "" }, Printed(value)))
        };
        match self {
            Statement::Nominate(its) => {
                f.write_str("nom(")?;
                joined(f, &its.voted)?;
                f.write_char('|')?;
                joined(f, &its.accepted)?;
                f.write_char(')')
            }
            Statement::Prepare { ballot, prepared: Some(prepared), aborted, high, low } => {
                write!(f, "prep({ballot},{prepared},{aborted},{high},{low})")
            }
            Statement::Prepare { ballot, prepared: None, aborted, high, low } => {
                write!(f, "prep({ballot},-,{aborted},{high},{low})")
            }
            Statement::Commit { ballot, prepared, high, low } => write!(f, "comm({ballot},{prepared},{high},{low})"),
            Statement::Externalize { commit, high } => write!(f, "ext({commit},{high})"),
        }
    }
}

// ---- Envelopes as they come: in words or as bytes.

#[derive(Clone)]
struct Message {
    sender: Name,
    slot: u64,
    slices: Rc<Tree>,
    statement: Statement,
}

impl Message {
    fn size(&self) -> u64 {
        (42 + self.slices.size() + self.statement.size()) as u64
    }
}

type Fault = u8;
const TRUNCATED: Fault = 1;
const TRAILING_BYTES: Fault = 2;
const VERSION: Fault = 3;
const KIND: Fault = 4;
const LIMIT: Fault = 5;
const BAD_SLICES: Fault = 6;
const BAD_STATEMENT: Fault = 7;
const SPARE_VERSION: Fault = 9;

fn check(holds: bool, fault: Fault) -> Result<(), Fault> {
    if holds { Ok(()) } else { Err(fault) }
}

/// Reads bytes from left to right; what is wrong first is the fault.
struct Bytes<'a>(&'a [u8]);

impl<'a> Bytes<'a> {
    fn take(&mut self, size: usize) -> Result<&'a [u8], Fault> {
        let (taken, rest) = self.0.split_at_checked(size).ok_or(TRUNCATED)?;
        self.0 = rest;
        Ok(taken)
    }

    fn number(&mut self, size: usize) -> Result<u64, Fault> {
        Ok(self.take(size)?.iter().fold(0, |number, byte| number << 8 | u64::from(*byte)))
    }

    fn byte(&mut self) -> Result<u8, Fault> {
        Ok(self.take(1)?[0])
    }

    fn counter(&mut self) -> Result<u32, Fault> {
        Ok(self.number(4)? as u32)
    }

    /// A name that stands twice is the fault, not what is wrong behind it.
    fn slices(&mut self, levels: usize) -> Result<Tree, Fault> {
        let mut names = Vec::new();
        let tree = self.set(levels, &mut names);
        if has_twins(&names) { Err(BAD_SLICES) } else { tree }
    }

    fn set(&mut self, levels: usize, names: &mut Vec<Name>) -> Result<Tree, Fault> {
        let (threshold, count) = (self.byte()?, self.byte()?);
        check(1 <= threshold && threshold <= count, BAD_SLICES)?;
        check(usize::from(count) <= MOST_MEMBERS, LIMIT)?;
        let members = (0..count).map(|_| self.member(levels, names)).collect::<Result<_, _>>()?;
        Ok(Tree { threshold, members })
    }

    fn member(&mut self, levels: usize, names: &mut Vec<Name>) -> Result<Member, Fault> {
        match self.byte()? {
            0 => {
                let name = Name(self.take(32)?.try_into().expect("32 bytes"));
                check(names.len() < MOST_NAMES, LIMIT)?;
                names.push(name);
                Ok(Member::Node(name))
            }
            1 if levels > 0 => Ok(Member::Set(self.set(levels - 1, names)?)),
            _ => Err(BAD_SLICES),
        }
    }

    fn value(&mut self) -> Result<Value, Fault> {
        let length = self.number(2)? as usize;
        check((1..=MOST_BYTES).contains(&length), LIMIT)?;
        Ok(self.take(length)?.into())
    }

    fn values(&mut self) -> Result<Vec<Value>, Fault> {
        let count = usize::from(self.byte()?);
        check(count <= MOST_VALUES, LIMIT)?;
        (0..count).map(|_| self.value()).collect()
    }

    fn ballot(&mut self) -> Result<Ballot, Fault> {
        Ok(Ballot { counter: self.counter()?, value: self.value()? })
    }

    fn statement(&mut self, kind: u8) -> Result<Statement, Fault> {
        let statement = match kind {
            1 => Statement::Nominate(Nomination { voted: self.values()?, accepted: self.values()? }),
            2 => {
                let ballot = self.ballot()?;
                let prepared = match self.byte()? {
                    0 => None,
                    1 => Some(self.ballot()?),
                    _ => return Err(BAD_STATEMENT),
                };
                Statement::Prepare {
                    ballot,
                    prepared,
                    aborted: self.counter()?,
                    high: self.counter()?,
                    low: self.counter()?,
                }
            }
            3 => Statement::Commit {
                ballot: self.ballot()?,
                prepared: self.counter()?,
                high: self.counter()?,
                low: self.counter()?,
            },
            _ => Statement::Externalize { commit: self.ballot()?, high: self.counter()? },
        };
        check(statement.is_well_formed(), BAD_STATEMENT)?;
        Ok(statement)
    }
}

fn decode(bytes: &[u8]) -> Result<Message, Fault> {
    check(bytes.len() <= 65536, LIMIT)?;
    let mut bytes = Bytes(bytes);
    let version = bytes.byte()?;
    check(version == 1 || version == 2, VERSION)?;
    let kind = bytes.byte()?;
    check((1..=4).contains(&kind), KIND)?;
    let sender = Name(bytes.take(32)?.try_into().expect("32 bytes"));
    let slot = bytes.number(8)?;
    let slices = Rc::new(bytes.slices(if version == 1 { 2 } else { MOST_LEVELS })?);
    check(version == 1 || slices.levels() > 2, SPARE_VERSION)?;
    let statement = bytes.statement(kind)?;
    check(bytes.0.is_empty(), TRAILING_BYTES)?;
    Ok(Message { sender, slot, slices, statement })
}

// ---- Sets of names, slices and leaders.

/// The names of a slot, numbered in the order in which they were met.
#[derive(Default)]
struct Names {
    numbers: HashMap<Name, u32>,
    names: Vec<Name>,
}

impl Names {
    fn number(&mut self, name: &Name) -> u32 {
        *self.numbers.entry(*name).or_insert_with(|| {
            self.names.push(*name);
            self.names.len() as u32 - 1
        })
    }
}

/// A set of numbers of names.
#[derive(Default)]
struct Bits(Vec<u64>);

impl Bits {
    fn word(&self, place: u32) -> u64 {
        self.0.get(place as usize).copied().unwrap_or(0)
    }

    fn has(&self, number: u32) -> bool {
        self.word(number / 64) >> (number % 64) & 1 == 1
    }

    /// Whether it is new.
    fn add(&mut self, number: u32) -> bool {
        let place = number as usize / 64;
        if place >= self.0.len() {
            self.0.resize(place + 1, 0);
        }
        let bit = 1 << (number % 64);
        let is_new = self.0[place] & bit == 0;
        self.0[place] |= bit;
        is_new
    }

    fn remove(&mut self, number: u32) {
        if let Some(word) = self.0.get_mut(number as usize / 64) {
            *word &= !(1 << (number % 64));
        }
    }

    fn add_all(&mut self, other: &Bits) {
        if self.0.len() < other.0.len() {
            self.0.resize(other.0.len(), 0);
        }
        self.0.iter_mut().zip(&other.0).for_each(|(word, more)| *word |= more);
    }

    fn remove_all(&mut self, other: &Bits) {
        self.0.iter_mut().zip(&other.0).for_each(|(word, less)| *word &= !less);
    }

    fn is_empty(&self) -> bool {
        self.0.iter().all(|word| *word == 0)
    }

    fn numbers(&self) -> impl Iterator<Item = u32> {
        self.0.iter().zip(0u32..).flat_map(|(&word, place)| {
            let rest = std::iter::successors(Some(word), |rest| Some(rest & rest.wrapping_sub(1)));
            rest.take_while(|rest| *rest != 0).map(move |rest| 64 * place + rest.trailing_zeros())
        })
    }
}

/// A threshold over members by their numbers: words of bits by their places, and sets.
struct Set {
    threshold: u32,
    members: u32,
    nodes: Vec<(u32, u64)>,
    sets: Vec<Set>,
}

impl Set {
    /// Adds the numbers of its names to a list.
    fn new(tree: &Tree, names: &mut Names, numbers: &mut Vec<u32>) -> Set {
        let (mut nodes, mut sets) = (Vec::<(u32, u64)>::new(), Vec::new());
        for member in &tree.members {
            match member {
                Member::Node(name) => {
                    let number = names.number(name);
                    numbers.push(number);
                    let (place, bit) = (number / 64, 1 << (number % 64));
                    match nodes.iter_mut().find(|(its, _)| *its == place) {
                        Some((_, word)) => *word |= bit,
                        None => nodes.push((place, bit)),
                    }
                }
                Member::Set(tree) => sets.push(Set::new(tree, names, numbers)),
            }
        }
        nodes.shrink_to_fit();
        Set { threshold: tree.threshold.into(), members: tree.members.len() as u32, nodes, sets }
    }

    fn count(&self, nodes: &Bits) -> u32 {
        self.nodes.iter().map(|(place, word)| (nodes.word(*place) & word).count_ones()).sum()
    }

    fn is_met_by(&self, nodes: &Bits) -> bool {
        self.count(nodes) + self.sets.iter().filter(|set| set.is_met_by(nodes)).count() as u32 >= self.threshold
    }

    /// Whether no set apart from the nodes satisfies this one: fewer members are left than the threshold.
    fn is_blocked_by(&self, nodes: &Bits) -> bool {
        let blocked = self.count(nodes) + self.sets.iter().filter(|set| set.is_blocked_by(nodes)).count() as u32;
        self.members - blocked < self.threshold
    }
}

/// Slices as they were announced, and by numbers.
struct Slices {
    tree: Rc<Tree>,
    set: Set,
    names: Box<[u32]>,
}

/// SHA-256 of a text that fits into one block.
fn digest(text: &[u8; 45]) -> u64 {
    const K: [u32; 64] = [
        0x428a2f98, 0x71374491, 0xb5c0fbcf, 0xe9b5dba5, 0x3956c25b, 0x59f111f1, 0x923f82a4, 0xab1c5ed5, 0xd807aa98,
        0x12835b01, 0x243185be, 0x550c7dc3, 0x72be5d74, 0x80deb1fe, 0x9bdc06a7, 0xc19bf174, 0xe49b69c1, 0xefbe4786,
        0x0fc19dc6, 0x240ca1cc, 0x2de92c6f, 0x4a7484aa, 0x5cb0a9dc, 0x76f988da, 0x983e5152, 0xa831c66d, 0xb00327c8,
        0xbf597fc7, 0xc6e00bf3, 0xd5a79147, 0x06ca6351, 0x14292967, 0x27b70a85, 0x2e1b2138, 0x4d2c6dfc, 0x53380d13,
        0x650a7354, 0x766a0abb, 0x81c2c92e, 0x92722c85, 0xa2bfe8a1, 0xa81a664b, 0xc24b8b70, 0xc76c51a3, 0xd192e819,
        0xd6990624, 0xf40e3585, 0x106aa070, 0x19a4c116, 0x1e376c08, 0x2748774c, 0x34b0bcb5, 0x391c0cb3, 0x4ed8aa4a,
        0x5b9cca4f, 0x682e6ff3, 0x748f82ee, 0x78a5636f, 0x84c87814, 0x8cc70208, 0x90befffa, 0xa4506ceb, 0xbef9a3f7,
        0xc67178f2,
    ];
    let start = [0x6a09e667u32, 0xbb67ae85, 0x3c6ef372, 0xa54ff53a, 0x510e527f, 0x9b05688c, 0x1f83d9ab, 0x5be0cd19];
    let mut block = [0; 64];
    block[..45].copy_from_slice(text);
    block[45] = 0x80;
    block[56..].copy_from_slice(&(45u64 * 8).to_be_bytes());
    let mut words = [0u32; 64];
    for (word, bytes) in words.iter_mut().zip(block.chunks(4)) {
        *word = u32::from_be_bytes(bytes.try_into().expect("four bytes"));
    }
    for t in 16..64 {
        let (early, late) = (words[t - 15], words[t - 2]);
        let small = early.rotate_right(7) ^ early.rotate_right(18) ^ early >> 3;
        let large = late.rotate_right(17) ^ late.rotate_right(19) ^ late >> 10;
        words[t] = words[t - 16].wrapping_add(small).wrapping_add(words[t - 7]).wrapping_add(large);
    }
    let [mut a, mut b, mut c, mut d, mut e, mut f, mut g, mut h] = start;
    for t in 0..64 {
        let large = e.rotate_right(6) ^ e.rotate_right(11) ^ e.rotate_right(25);
        let first = h.wrapping_add(large).wrapping_add(e & f ^ !e & g).wrapping_add(K[t]).wrapping_add(words[t]);
        let small = a.rotate_right(2) ^ a.rotate_right(13) ^ a.rotate_right(22);
        let second = small.wrapping_add(a & b ^ a & c ^ b & c);
        (h, g, f, e, d, c, b, a) = (g, f, e, d.wrapping_add(first), c, b, a, first.wrapping_add(second));
    }
    u64::from(start[0].wrapping_add(a)) << 32 | u64::from(start[1].wrapping_add(b))
}

fn hash(slot: u64, tag: u8, round: u32, name: &Name) -> u64 {
    let mut text = [0; 45];
    text[..8].copy_from_slice(&slot.to_be_bytes());
    text[8] = tag;
    text[9..13].copy_from_slice(&round.to_be_bytes());
    text[13..].copy_from_slice(&name.0);
    digest(&text)
}

/// The neighbour with the greatest hash. A name is a neighbour where its hash is below its weight, the product of
/// threshold by count over the sets around it; the node itself always is.
fn leader(slot: u64, round: u32, node: Name, slices: &Tree) -> Name {
    fn best(tree: &Tree, above: u128, below: u128, try_one: &mut impl FnMut(Name, u128, u128)) {
        let (above, below) = (above * u128::from(tree.threshold), below * tree.members.len() as u128);
        for member in &tree.members {
            match member {
                Member::Node(name) => try_one(*name, above, below),
                Member::Set(tree) => best(tree, above, below, try_one),
            }
        }
    }
    let mut found = (hash(slot, 2, round, &node), node);
    best(slices, 1, 1, &mut |name, above, below| {
        if name != node && u128::from(hash(slot, 1, round, &name)) * below < above << 64 {
            found = found.max((hash(slot, 2, round, &name), name));
        }
    });
    found.1
}

// ---- One node at a slot.

/// An envelope that was taken at a slot.
struct Envelope {
    sender: Name,
    number: u32,
    slices: Rc<Slices>,
    statement: Statement,
}

#[derive(Clone)]
enum Out {
    ArmNomination(u32),
    ArmBallot(u32),
    Emit(Rc<Envelope>),
    Externalized(Value),
}

impl Display for Out {
    fn fmt(&self, f: &mut Formatter) -> fmt::Result {
        match self {
            Out::ArmNomination(round) => write!(f, "arm-nomination {round}"),
            Out::ArmBallot(counter) => write!(f, "arm-ballot {counter}"),
            Out::Emit(envelope) => write!(f, "emit {}", envelope.statement),
            Out::Externalized(value) => write!(f, "externalized {}", Printed(value)),
        }
    }
}

#[derive(Clone, Copy, PartialEq, Eq)]
enum Phase {
    Prepare,
    Commit,
    Externalize,
}

/// What happens to a node.
#[derive(Clone)]
enum Deed {
    Propose(Value),
    Take(Rc<Envelope>),
    Hear(Rc<Emission>),
    NominationTimer(u32),
    BallotTimer(u32),
    Reslice(Rc<Slices>),
}

/// An envelope that a node emitted, and how many of that kind it has emitted with it.
struct Emission {
    envelope: Rc<Envelope>,
    count: usize,
}

/// Which rules an event stirs; the others would change nothing.
#[derive(Clone, Copy)]
struct Stirred {
    nomination: bool,
    ballots: bool,
}

/// Those whom a node reaches and whose rows of a kind say the same.
struct Camp {
    /// One of the rows.
    row: Rc<Envelope>,
    senders: Bits,
}

struct Node {
    name: Name,
    number: u32,
    slot: u64,
    slices: Rc<Slices>,
    /// The newest nomination and ballot statement of each sender, by the sender's number.
    rows: Vec<[Option<Rc<Envelope>>; 2]>,
    /// Whom the node reaches, and what they say, by the kinds of rows.
    reach: Bits,
    camps: [Vec<Camp>; 2],
    input: Option<Value>,
    round: u32,
    leaders: Vec<u32>,
    said: Nomination,
    candidates: Vec<Value>,
    phase: Phase,
    ballot: Option<Ballot>,
    /// The greatest ballot that is accepted as prepared, and the greatest that is confirmed.
    prepared: Option<Ballot>,
    aborted: u32,
    confirmed: Option<Ballot>,
    /// In PREPARE the ballot from which on commits are voted for; later the interval.
    commit: Option<Ballot>,
    low: u32,
    high: u32,
    armed: u32,
    fired: u32,
    /// What stands for the node in its own ballot tests.
    position: Option<Statement>,
    sent: Option<Statement>,
}

impl Node {
    fn new(name: Name, number: u32, slot: u64, slices: Rc<Slices>) -> Node {
        let mut node = Node {
            name,
            number,
            slot,
            slices,
            rows: Vec::new(),
            reach: Bits::default(),
            camps: Default::default(),
            input: None,
            round: 0,
            leaders: Vec::new(),
            said: Nomination::default(),
            candidates: Vec::new(),
            phase: Phase::Prepare,
            ballot: None,
            prepared: None,
            aborted: 0,
            confirmed: None,
            commit: None,
            low: 0,
            high: 0,
            armed: 0,
            fired: 0,
            position: None,
            sent: None,
        };
        node.find_reach();
        node
    }

    fn row(&self, number: u32, kind: usize) -> Option<&Rc<Envelope>> {
        self.rows.get(number as usize)?[kind].as_ref()
    }

    fn find_reach(&mut self) {
        self.reach.0.clear();
        self.camps.iter_mut().for_each(Vec::clear);
        self.reach_for(&[self.number]);
        self.reach_for(&self.slices.clone().names);
    }

    /// Adds these, and whom their rows name, and so on. Whether there is a row of theirs.
    fn reach_for(&mut self, names: &[u32]) -> bool {
        let mut found = names.iter().copied().filter(|name| !self.reach.has(*name)).collect::<Vec<_>>();
        let mut has_rows = false;
        while let Some(number) = found.pop() {
            if self.reach.add(number) {
                for row in self.rows.get(number as usize).cloned().into_iter().flatten().flatten() {
                    found.extend(row.slices.names.iter().filter(|name| !self.reach.has(**name)));
                    self.join(row);
                    has_rows = true;
                }
            }
        }
        has_rows
    }

    fn join(&mut self, row: Rc<Envelope>) {
        let (camps, number) = (&mut self.camps[row.statement.kind()], row.number);
        match camps.iter_mut().find(|camp| camp.row.statement == row.statement) {
            Some(camp) => camp.senders.add(number),
            None => {
                camps.push(Camp { row, senders: Bits::default() });
                camps.last_mut().expect("it was pushed").senders.add(number)
            }
        };
    }

    fn leave(&mut self, row: &Envelope) {
        let camps = &mut self.camps[row.statement.kind()];
        if let Some(place) = camps.iter().position(|camp| camp.senders.has(row.number)) {
            camps[place].senders.remove(row.number);
            if camps[place].senders.is_empty() {
                camps.swap_remove(place);
            }
        }
    }

    /// Puts an envelope into the table. None where it is stale, else which rules it stirs.
    fn take(&mut self, envelope: Rc<Envelope>) -> Option<Stirred> {
        let (number, kind) = (envelope.number, envelope.statement.kind());
        if self.rows.len() <= number as usize {
            self.rows.resize(number as usize + 1, [None, None]);
        }
        let row = &mut self.rows[number as usize][kind];
        if row.as_ref().is_some_and(|old| !envelope.statement.is_newer(&old.statement)) {
            return None;
        }
        let old = row.replace(envelope.clone());
        if !self.reach.has(number) {
            return Some(Stirred { nomination: kind == NOMINATIONS && self.leaders.contains(&number), ballots: false });
        }
        let slices = envelope.slices.clone();
        let moved = match old {
            None => {
                self.join(envelope);
                self.reach_for(&slices.names)
            }
            Some(old) if Rc::ptr_eq(&old.slices, &slices) => {
                self.leave(&old);
                self.join(envelope);
                false
            }
            Some(_) => {
                self.find_reach();
                true
            }
        };
        Some(Stirred { nomination: moved || kind == NOMINATIONS, ballots: moved || kind == BALLOTS })
    }

    // What is accepted and confirmed.

    /// Who goes so far for a claim, among those whom the node reaches, and itself.
    fn backers(&self, kind: usize, least: Level, own: Level, level: impl Fn(&Statement) -> Level) -> Bits {
        let mut backers = Bits(vec![0; self.reach.0.len()]);
        for camp in self.camps[kind].iter().filter(|camp| level(&camp.row.statement) >= least) {
            backers.add_all(&camp.senders);
        }
        if own >= least {
            backers.add(self.number);
        }
        backers
    }

    /// Whether some quorum of these has the node: all whose slices the others do not satisfy are taken away, until none
    /// is left.
    fn has_quorum(&self, kind: usize, mut left: Bits) -> bool {
        while left.has(self.number) && self.slices.set.is_met_by(&left) {
            // Many have the same slices as the one before.
            let mut last = (&self.slices, true);
            let is_unmet = |number: &u32| {
                let slices = self.row(*number, kind).map_or(&self.slices, |row| &row.slices);
                if *number != self.number && !Rc::ptr_eq(last.0, slices) {
                    last = (slices, slices.set.is_met_by(&left));
                }
                *number != self.number && !last.1
            };
            let unmet = left.numbers().filter(is_unmet).collect::<Vec<_>>();
            if unmet.is_empty() {
                return true;
            }
            unmet.into_iter().for_each(|number| left.remove(number));
        }
        false
    }

    fn accepts(&self, kind: usize, own: Level, level: impl Fn(&Statement) -> Level) -> bool {
        let is_blocked = self.slices.set.is_blocked_by(&self.backers(kind, Accepts, own, &level));
        is_blocked || self.has_quorum(kind, self.backers(kind, Votes, own, level))
    }

    fn confirms(&self, kind: usize, own: Level, level: impl Fn(&Statement) -> Level) -> bool {
        self.has_quorum(kind, self.backers(kind, Accepts, own, level))
    }

    fn own(&self, level: impl Fn(&Statement) -> Level) -> Level {
        self.position.as_ref().map_or(Nothing, level)
    }

    fn accepts_ballot(&self, level: impl Fn(&Statement) -> Level) -> bool {
        self.accepts(BALLOTS, self.own(&level), level)
    }

    fn confirms_ballot(&self, level: impl Fn(&Statement) -> Level) -> bool {
        self.confirms(BALLOTS, self.own(&level), level)
    }

    // The rules of nomination. Each rule answers whether it changed something.

    fn echo(&mut self) -> bool {
        if self.round == 0 || !self.candidates.is_empty() {
            return false;
        }
        let rows = self.leaders.iter().filter_map(|number| self.row(*number, NOMINATIONS)?.statement.nomination());
        let own = self.input.as_ref().filter(|_| self.leaders.contains(&self.number));
        let values = rows.flat_map(Nomination::values).chain(own).cloned().collect();
        gain(&mut self.said.voted, values)
    }

    fn accept_values(&mut self) -> bool {
        let near = self.camps[NOMINATIONS].iter().filter_map(|camp| camp.row.statement.nomination());
        let values = near.flat_map(Nomination::values).chain(&self.said.voted);
        let mut values = values.filter(|value| !self.said.accepted.contains(value)).collect::<Vec<_>>();
        values.sort_unstable();
        values.dedup();
        values.retain(|value| self.accepts(NOMINATIONS, self.said.level(value), |it| it.on_value(value)));
        let values = values.into_iter().cloned().collect();
        gain(&mut self.said.accepted, values)
    }

    fn confirm_values(&mut self) -> bool {
        let new = self.said.accepted.iter().filter(|value| !self.candidates.contains(value));
        let confirmed =
            new.filter(|value| self.confirms(NOMINATIONS, Accepts, |it| it.on_value(value))).cloned().collect();
        gain(&mut self.candidates, confirmed)
    }

    // The rules of ballots.

    fn near_statements(&self) -> impl Iterator<Item = &Statement> {
        self.camps[BALLOTS].iter().map(|camp| &camp.row.statement).chain(&self.position)
    }

    /// The greatest named ballot above the one that is kept for which the test holds.
    fn greatest(
        &self,
        kept: Option<&Ballot>,
        is_tried: impl Fn(Tried) -> bool,
        test: impl Fn(Tried) -> bool,
    ) -> Option<Ballot> {
        let kept = kept.map(|kept| (kept.counter, &kept.value));
        let named = self.near_statements().flat_map(Statement::named);
        let mut named = named.filter(|it| kept.is_none_or(|kept| *it > kept) && is_tried(*it)).collect::<Vec<_>>();
        named.sort_unstable();
        named.dedup();
        let found = named.into_iter().rev().find(|it| test(*it));
        found.map(|(counter, value)| Ballot { counter, value: value.clone() })
    }

    fn start(&mut self) -> bool {
        self.ballot = match self.candidates.last() {
            Some(value) => Some(Ballot { counter: 1, value: value.clone() }),
            None => self.greatest(None, |_| true, |tried| self.accepts_ballot(|it| it.on_prepare(tried))),
        };
        self.ballot.is_some()
    }

    fn accept_prepared(&mut self) -> bool {
        let only = self.ballot.as_ref().filter(|_| self.phase == Phase::Commit).map(|ballot| &ballot.value);
        let is_tried = |(_, value): Tried| only.is_none_or(|only| only == value);
        let found =
            self.greatest(self.prepared.as_ref(), is_tried, |tried| self.accepts_ballot(|it| it.on_prepare(tried)));
        let Some(new) = found else { return false };
        if let Some(old) = self.prepared.as_ref().filter(|old| old.value != new.value) {
            self.aborted = self.aborted.max(old.counter.saturating_add((old.value > new.value).into()));
        }
        self.prepared = Some(new);
        true
    }

    /// The counter of the ballot, until the node decides.
    fn counter(&self) -> Option<u32> {
        self.ballot.as_ref().filter(|_| self.phase != Phase::Externalize).map(|ballot| ballot.counter)
    }

    fn is_aborted(&self, (counter, value): Tried) -> bool {
        let is_below =
            |prepared: &Ballot| (prepared.counter, &prepared.value) > (counter, value) && prepared.value != *value;
        self.aborted > counter || self.prepared.as_ref().is_some_and(is_below)
    }

    fn high_counter(&self) -> u32 {
        let both = self.confirmed.as_ref().zip(self.ballot.as_ref());
        both.map_or(0, |(confirmed, ballot)| if confirmed.value == ballot.value { confirmed.counter } else { 0 })
    }

    fn confirm_prepared(&mut self) -> bool {
        if self.phase != Phase::Prepare {
            return false;
        }
        let found =
            self.greatest(self.confirmed.as_ref(), |_| true, |tried| self.confirms_ballot(|it| it.on_prepare(tried)));
        let mut changed = found.is_some();
        if changed {
            self.ballot = self.ballot.take().max(found.clone());
            self.confirmed = found;
        }
        if self.commit.as_ref().is_some_and(|commit| self.is_aborted((commit.counter, &commit.value))) {
            self.commit = None;
            changed = true;
        }
        if let (None, Some(ballot)) = (&self.commit, &self.ballot) {
            if self.high_counter() == ballot.counter && !self.is_aborted((ballot.counter, &ballot.value)) {
                self.commit = Some(ballot.clone());
                changed = true;
            }
        }
        changed
    }

    fn commits(&self, is_tried: impl Fn(Tried) -> bool) -> Vec<Tried<'_>> {
        let counters = self.near_statements().flat_map(Statement::commit_counters);
        let mut counters = counters.filter(|it| is_tried(*it)).collect::<Vec<_>>();
        counters.sort_unstable();
        counters.dedup();
        counters
    }

    /// The greatest counter for which the test holds, and the least from which on it holds up to there.
    fn interval(
        &self,
        tried: &[Tried],
        first: impl Fn(Tried) -> bool,
        test: impl Fn(&Value, u32, u32) -> bool,
    ) -> Option<(u32, Ballot)> {
        let &(high, value) =
            tried.iter().rev().find(|(counter, value)| first((*counter, value)) && test(value, *counter, *counter))?;
        let counters = self.commits(|(counter, its)| its == value && counter < high);
        let low = counters.into_iter().map(|(counter, _)| counter).find(|counter| test(value, *counter, high));
        Some((low.unwrap_or(high), Ballot { counter: high, value: value.clone() }))
    }

    fn accept_commit(&mut self) -> bool {
        let Some(ballot) = &self.ballot else { return false };
        let accepts = |value: &Value, from: u32, to: u32| self.accepts_ballot(|it| it.on_commit(value, from, to));
        let found = if self.phase == Phase::Prepare {
            let is_prepared = |tried: Tried| !self.is_aborted(tried) && self.confirms_ballot(|it| it.on_prepare(tried));
            self.interval(&self.commits(|_| true), is_prepared, accepts)
        } else {
            self.interval(
                &self.commits(|(counter, value)| counter > self.high && *value == ballot.value),
                |_| true,
                accepts,
            )
        };
        let Some((low, best)) = found else { return false };
        self.ballot = Some(Ballot { counter: ballot.counter.max(best.counter), value: best.value.clone() });
        (self.low, self.high) = (low, best.counter);
        if self.phase == Phase::Prepare {
            self.confirmed = self.confirmed.take().max(Some(best.clone()));
        }
        self.prepared = self.prepared.take().max(Some(best));
        self.phase = Phase::Commit;
        true
    }

    fn confirm_commit(&mut self) -> bool {
        let Some(ballot) = self.ballot.as_ref().filter(|_| self.phase == Phase::Commit) else { return false };
        let confirms = |value: &Value, from: u32, to: u32| self.confirms_ballot(|it| it.on_commit(value, from, to));
        let Some((low, best)) = self.interval(&self.commits(|(_, value)| *value == ballot.value), |_| true, confirms)
        else {
            return false;
        };
        (self.low, self.high) = (low, best.counter);
        self.phase = Phase::Externalize;
        true
    }

    fn raise(&mut self) -> bool {
        let Some(counter) = self.counter() else { return false };
        let cap = 1000u32.saturating_add(self.fired);
        let camps = self.camps[BALLOTS].iter().map(|camp| (camp.row.statement.counter(), &camp.senders));
        let mut above = camps.filter(|(its, _)| *its > counter.into()).collect::<Vec<_>>();
        let mut blocking = Bits::default();
        above.iter().for_each(|(_, senders)| blocking.add_all(senders));
        if counter >= cap || !self.slices.set.is_blocked_by(&blocking) {
            return false;
        }
        above.sort_unstable_by_key(|(its, _)| *its);
        let mut raised = counter;
        for group in above.chunk_by(|one, other| one.0 == other.0) {
            raised = u32::try_from(group[0].0).unwrap_or(cap).min(cap);
            group.iter().for_each(|(_, senders)| blocking.remove_all(senders));
            if raised == cap || !self.slices.set.is_blocked_by(&blocking) {
                break;
            }
        }
        self.set_counter(raised);
        true
    }

    fn set_counter(&mut self, counter: u32) {
        let value = match self.phase {
            Phase::Commit => self.ballot.as_ref().map(|ballot| &ballot.value),
            _ => None,
        };
        let value = value.or(self.confirmed.as_ref().map(|it| &it.value)).or(self.candidates.last());
        let value = value.or(self.prepared.as_ref().map(|it| &it.value)).expect("a ballot has a cause").clone();
        self.ballot = Some(Ballot { counter, value });
    }

    fn arm(&mut self) -> bool {
        let Some(counter) = self.counter().filter(|it| *it != self.armed) else { return false };
        let level = |it: &Statement| if it.counter() >= counter.into() { Votes } else { Nothing };
        let is_there = self.has_quorum(BALLOTS, self.backers(BALLOTS, Votes, Votes, level));
        if is_there {
            self.armed = counter;
        }
        is_there
    }

    // Events.

    fn pass(&mut self, stirred: &mut Stirred) -> (bool, bool) {
        let mut nominated = false;
        if stirred.nomination && self.confirmed.is_none() {
            let candidates = self.candidates.len();
            nominated = self.echo();
            nominated |= self.accept_values();
            nominated |= self.confirm_values();
            stirred.ballots |= self.ballot.is_none() && self.candidates.len() > candidates;
        }
        if !stirred.ballots || self.phase == Phase::Externalize || self.ballot.is_none() && !self.start() {
            return (nominated, false);
        }
        let mut changed = self.position.is_none();
        if changed {
            self.position = self.stand();
        }
        let rules = [
            Node::accept_prepared,
            Node::confirm_prepared,
            Node::accept_commit,
            Node::confirm_commit,
            Node::raise,
            Node::arm,
        ];
        for rule in rules {
            if rule(self) {
                self.position = self.stand();
                changed = true;
            }
        }
        (nominated, changed)
    }

    fn stand(&self) -> Option<Statement> {
        let ballot = self.ballot.clone()?;
        Some(match self.phase {
            Phase::Externalize => {
                Statement::Externalize { commit: Ballot { counter: self.low, ..ballot }, high: self.high }
            }
            Phase::Commit => {
                let prepared = self.prepared.as_ref().map_or(0, |prepared| prepared.counter);
                Statement::Commit { ballot, prepared, high: self.high, low: self.low }
            }
            Phase::Prepare => {
                let high = self.high_counter();
                let commit =
                    self.commit.as_ref().filter(|commit| commit.value == ballot.value && commit.counter <= high);
                Statement::Prepare {
                    ballot,
                    prepared: self.prepared.clone(),
                    aborted: self.aborted,
                    high,
                    low: commit.map_or(0, |it| it.counter),
                }
            }
        })
    }

    /// The position with no prepared ballot above the ballot, and no aborted counter above its counter.
    fn to_send(&self) -> Option<Statement> {
        let mut statement = self.position.clone();
        if let Some(Statement::Prepare { ballot, prepared, aborted, .. }) = &mut statement {
            *aborted = ballot.counter.min(*aborted);
            if let Some(prepared) = prepared.as_mut().filter(|prepared| **prepared > *ballot) {
                prepared.counter = ballot.counter - u32::from(prepared.value > ballot.value);
            }
        }
        statement
    }

    fn begin_round(&mut self, round: u32, names: &mut Names) {
        let leader = names.number(&leader(self.slot, round, self.name, &self.slices.tree));
        self.round = round;
        if !self.leaders.contains(&leader) {
            self.leaders.push(leader);
        }
    }

    /// Does what happens to the node. None where it is stale, else what the node gives out.
    fn step(&mut self, deed: Deed, names: &mut Names) -> Option<Vec<Out>> {
        let before = (self.round, self.armed, self.phase, self.said.values().count());
        let mut balloted = false;
        let mut stirred = match deed {
            Deed::Propose(value) => {
                self.input = Some(value);
                self.begin_round(1, names);
                Stirred { nomination: true, ballots: false }
            }
            Deed::Take(envelope) => self.take(envelope)?,
            Deed::Hear(emission) => self.take(emission.envelope.clone())?,
            Deed::NominationTimer(its)
                if its >= 1 && its == self.round && self.confirmed.is_none() && its < u32::MAX =>
            {
                self.begin_round(its + 1, names);
                Stirred { nomination: true, ballots: false }
            }
            Deed::BallotTimer(its) if its == self.armed && self.counter() == Some(its) && its < u32::MAX => {
                self.fired += 1;
                self.set_counter(its + 1);
                self.position = self.stand();
                balloted = true;
                Stirred { nomination: false, ballots: true }
            }
            Deed::NominationTimer(_) | Deed::BallotTimer(_) => return None,
            Deed::Reslice(slices) => {
                self.slices = slices;
                self.find_reach();
                Stirred { nomination: true, ballots: true }
            }
        };
        while self.phase != Phase::Externalize {
            let (nominates, ballots) = self.pass(&mut stirred);
            balloted |= ballots;
            if !nominates && !ballots {
                break;
            }
        }
        Some(self.give_out(before, balloted))
    }

    fn give_out(&mut self, (round, armed, phase, spoken): (u32, u32, Phase, usize), balloted: bool) -> Vec<Out> {
        let mut outs = Vec::new();
        if self.round != round && self.confirmed.is_none() {
            outs.push(Out::ArmNomination(self.round));
        }
        if self.armed != armed && self.counter() == Some(self.armed) {
            outs.push(Out::ArmBallot(self.armed));
        }
        let emit = |statement| {
            Out::Emit(Rc::new(Envelope {
                sender: self.name,
                number: self.number,
                slices: self.slices.clone(),
                statement,
            }))
        };
        if self.said.values().count() != spoken {
            outs.push(emit(Statement::Nominate(self.said.clone())));
        }
        let to_send = if balloted { self.to_send() } else { None };
        if to_send.is_some() && to_send != self.sent {
            outs.extend(to_send.clone().map(emit));
            self.sent = to_send;
        }
        if self.phase != phase && self.phase == Phase::Externalize {
            outs.extend(self.ballot.as_ref().map(|ballot| Out::Externalized(ballot.value.clone())));
        }
        outs
    }
}

/// Adds values in their order, as many as there is room for.
fn gain(set: &mut Vec<Value>, mut values: Vec<Value>) -> bool {
    values.retain(|value| !set.contains(value));
    values.sort_unstable();
    values.dedup();
    values.truncate(MOST_VALUES - set.len());
    let is_more = !values.is_empty();
    set.extend(values);
    set.sort_unstable();
    is_more
}

/// What envelopes of a slot share: the numbers of names, and slices.
#[derive(Default)]
struct Ground {
    names: Names,
    slices: HashMap<Rc<Tree>, Rc<Slices>>,
}

impl Ground {
    fn slices(&mut self, tree: &Rc<Tree>) -> Rc<Slices> {
        if let Some(slices) = self.slices.get(tree) {
            return slices.clone();
        }
        let mut names = Vec::new();
        let set = Set::new(tree, &mut self.names, &mut names);
        let slices = Rc::new(Slices { tree: tree.clone(), set, names: names.into() });
        self.slices.insert(tree.clone(), slices.clone());
        slices
    }

    fn file(&mut self, message: Message) -> Rc<Envelope> {
        let slices = self.slices(&message.slices);
        let number = self.names.number(&message.sender);
        Rc::new(Envelope { sender: message.sender, number, slices, statement: message.statement })
    }
}

// ---- Networks.

#[derive(Clone, Copy)]
struct Refusal(u8, &'static str, Option<Fault>);

impl Refusal {
    const NO_SUCH_NETWORK: Refusal = Refusal(1, "NoSuchNetwork", None);
    const NO_SUCH_NODE: Refusal = Refusal(2, "NoSuchNode", None);
    const SLOT_NOT_OPEN: Refusal = Refusal(3, "SlotNotOpen", None);
    const SLOT_OPEN_ALREADY: Refusal = Refusal(4, "SlotOpenAlready", None);
    const TOO_MANY_SLOTS: Refusal = Refusal(5, "TooManySlots", None);
    const HOSTED_SENDER: Refusal = Refusal(7, "HostedSender", None);
    const NOT_EMITTED: Refusal = Refusal(8, "NotEmitted", None);
    const JOURNAL_FULL: Refusal = Refusal(9, "JournalFull", None);
    const BYTES_FULL: Refusal = Refusal(10, "BytesFull", None);
    const BAD_VALUE: Refusal = Refusal(11, "BadValue", None);
    const PROPOSED_ALREADY: Refusal = Refusal(12, "ProposedAlready", None);
    const SHARE_FULL: Refusal = Refusal(15, "ShareFull", None);
    const SHARE_BYTES_FULL: Refusal = Refusal(16, "ShareBytesFull", None);
}

impl Display for Refusal {
    fn fmt(&self, f: &mut Formatter) -> fmt::Result {
        write!(f, "refused {} {}", self.0, self.1)?;
        self.2.map_or(Ok(()), |fault| write!(f, " {fault}"))
    }
}

fn refuse(is_wrong: bool, refusal: Refusal) -> Result<(), Refusal> {
    if is_wrong { Err(refusal) } else { Ok(()) }
}

/// Events and bytes to draw on.
struct Purse {
    events: u64,
    bytes: u64,
    is_share: bool,
}

impl Purse {
    fn draw(&mut self, bytes: u64) -> Result<(), Refusal> {
        refuse(self.events == 0, if self.is_share { Refusal::SHARE_FULL } else { Refusal::JOURNAL_FULL })?;
        refuse(self.bytes < bytes, if self.is_share { Refusal::SHARE_BYTES_FULL } else { Refusal::BYTES_FULL })?;
        self.events -= 1;
        self.bytes -= bytes;
        Ok(())
    }
}

struct Roster {
    own: u64,
    pair: u64,
    bytes: u64,
    opens: u64,
    names: HashSet<Name>,
}

/// An event as a line says it.
enum Event {
    Open,
    Close,
    Propose(Name, Vec<u8>),
    Deliver(Name, Result<Message, Fault>),
    Hear(Name, Name, usize, u64),
    NominationTimer(Name, u32),
    BallotTimer(Name, u32),
    Reslice(Name, Rc<Tree>),
}

struct Applied {
    is_stale: bool,
    outs: Vec<Out>,
}

struct Slot {
    ground: Ground,
    /// Their numbers are their places.
    nodes: Vec<Node>,
    emitted: Vec<Rc<Emission>>,
    /// The places of each node's emissions, by kind.
    by_sender: Vec<[Vec<usize>; 2]>,
    handed_on: usize,
    shares: HashMap<(Name, Option<Name>), Purse>,
}

impl Slot {
    fn new(number: u64, hosted: &[(Name, Rc<Tree>)]) -> Slot {
        let mut ground = Ground::default();
        for (name, _) in hosted {
            ground.names.number(name);
        }
        let nodes = hosted
            .iter()
            .zip(0..)
            .map(|((name, tree), place)| Node::new(*name, place, number, ground.slices(tree)))
            .collect();
        let by_sender = hosted.iter().map(|_| Default::default()).collect();
        Slot { ground, nodes, emitted: Vec::new(), by_sender, handed_on: 0, shares: HashMap::new() }
    }

    fn step(&mut self, place: usize, deed: Deed) -> Applied {
        let Some(outs) = self.nodes[place].step(deed, &mut self.ground.names) else {
            return Applied { is_stale: true, outs: Vec::new() };
        };
        for out in &outs {
            if let Out::Emit(envelope) = out {
                let its = &mut self.by_sender[place][envelope.statement.kind()];
                its.push(self.emitted.len());
                self.emitted.push(Rc::new(Emission { envelope: envelope.clone(), count: its.len() }));
            }
        }
        Applied { is_stale: false, outs }
    }
}

struct Network {
    is_served: bool,
    is_complete: bool,
    budget: Purse,
    openings: Option<Purse>,
    most_slots: usize,
    /// Ascending by name.
    hosted: Vec<(Name, Rc<Tree>)>,
    roster: Option<Roster>,
    slots: BTreeMap<u64, Slot>,
    /// A slot, and what was applied there with what came of it.
    history: Option<(u64, Vec<Entry>)>,
}

impl Network {
    fn place(&self, name: Name) -> Result<usize, Refusal> {
        self.hosted.binary_search_by_key(&name, |(its, _)| *its).map_err(|_| Refusal::NO_SUCH_NODE)
    }

    fn slot(&mut self, number: u64) -> Result<&mut Slot, Refusal> {
        self.slots.get_mut(&number).ok_or(Refusal::SLOT_NOT_OPEN)
    }

    /// A node on the roster has a share of its own, and one with each other name on it; all else draws on the budget.
    fn draw(&mut self, number: u64, place: usize, sender: Option<Name>, bytes: u64) -> Result<(), Refusal> {
        let receiver = self.hosted[place].0;
        let on_roster = |roster: &&Roster| {
            roster.names.contains(&receiver) && sender.is_none_or(|sender| roster.names.contains(&sender))
        };
        let Some(roster) = self.roster.as_ref().filter(on_roster) else { return self.budget.draw(bytes) };
        let slot = self.slots.get_mut(&number).ok_or(Refusal::SLOT_NOT_OPEN)?;
        let (events, most) = if sender.is_none() { (roster.own, 0) } else { (roster.pair, roster.bytes) };
        let share = slot.shares.entry((receiver, sender)).or_insert(Purse { events, bytes: most, is_share: true });
        share.draw(bytes)
    }

    fn apply(&mut self, number: u64, event: Event) -> Result<Applied, Refusal> {
        let (place, deed) = match event {
            Event::Open => {
                refuse(self.slots.contains_key(&number), Refusal::SLOT_OPEN_ALREADY)?;
                refuse(self.slots.len() == self.most_slots, Refusal::TOO_MANY_SLOTS)?;
                self.openings.as_mut().unwrap_or(&mut self.budget).draw(0)?;
                self.slots.insert(number, Slot::new(number, &self.hosted));
                self.enter(number, || Step::Open, &[]);
                return Ok(Applied { is_stale: false, outs: Vec::new() });
            }
            Event::Close => {
                self.slot(number)?;
                self.openings.as_mut().unwrap_or(&mut self.budget).draw(0)?;
                self.slots.remove(&number);
                self.enter(number, || Step::Close, &[]);
                return Ok(Applied { is_stale: false, outs: Vec::new() });
            }
            Event::Deliver(name, message) => {
                let place = self.place(name)?;
                let message = message.map_err(|fault| Refusal(6, "BadEnvelope", Some(fault)))?;
                refuse(self.place(message.sender).is_ok(), Refusal::HOSTED_SENDER)?;
                self.slot(number)?;
                self.draw(number, place, Some(message.sender), message.size())?;
                let envelope = self.slot(number)?.ground.file(message);
                return Ok(self.step(number, place, Deed::Take(envelope)));
            }
            Event::Hear(name, from, kind, count) => {
                let (place, sender) = (self.place(name)?, self.place(from)?);
                refuse(place == sender, Refusal::NO_SUCH_NODE)?;
                let emitted = &self.slot(number)?.by_sender[sender][kind];
                let at = (count as usize).checked_sub(1).and_then(|it| emitted.get(it));
                let at = *at.ok_or(Refusal::NOT_EMITTED)?;
                return self.hear(number, place, at);
            }
            Event::Propose(name, value) => {
                let place = self.place(name)?;
                let node = &self.slot(number)?.nodes[place];
                refuse(!(1..=MOST_BYTES).contains(&value.len()), Refusal::BAD_VALUE)?;
                refuse(node.input.is_some(), Refusal::PROPOSED_ALREADY)?;
                (place, Deed::Propose(value.into()))
            }
            Event::NominationTimer(name, round) => (self.place(name)?, Deed::NominationTimer(round)),
            Event::BallotTimer(name, counter) => (self.place(name)?, Deed::BallotTimer(counter)),
            Event::Reslice(name, tree) => (self.place(name)?, Deed::Reslice(self.slot(number)?.ground.slices(&tree))),
        };
        self.slot(number)?;
        self.draw(number, place, None, 0)?;
        Ok(self.step(number, place, deed))
    }

    /// Has a node hear an emission.
    fn hear(&mut self, number: u64, place: usize, at: usize) -> Result<Applied, Refusal> {
        let emission = self.slot(number)?.emitted[at].clone();
        self.draw(number, place, Some(emission.envelope.sender), 0)?;
        Ok(self.step(number, place, Deed::Hear(emission)))
    }

    fn step(&mut self, number: u64, place: usize, deed: Deed) -> Applied {
        let told = self.history.is_some().then(|| deed.clone());
        let applied = self.slots.get_mut(&number).expect("it is open").step(place, deed);
        if let Some(deed) = told {
            let name = self.hosted[place].0;
            self.enter(number, || Step::Of(name, deed), &applied.outs);
        }
        applied
    }

    fn enter(&mut self, number: u64, step: impl FnOnce() -> Step, outs: &[Out]) {
        if let Some((_, entries)) = self.history.as_mut().filter(|(slot, _)| *slot == number) {
            entries.push(Entry { step: step(), outs: outs.into() });
        }
    }

    fn emitted(&self, number: u64) -> usize {
        self.slots.get(&number).map_or(0, |slot| slot.emitted.len())
    }

    /// Has all emissions from a place on heard by all others, until none is left, and tells each hearing.
    fn follow(&mut self, number: u64, first: usize, mut tell: impl FnMut(Name, &Result<Applied, Refusal>)) {
        let mut at = first;
        while at < self.emitted(number) {
            for place in 0..self.hosted.len() {
                if self.slots[&number].emitted[at].envelope.number as usize != place {
                    let heard = self.hear(number, place, at);
                    tell(self.hosted[place].0, &heard);
                }
            }
            at += 1;
        }
    }

    fn settle(&mut self, number: u64) -> Result<String, Refusal> {
        self.slot(number)?;
        while self.slots[&number].handed_on < self.emitted(number) {
            let at = self.slots[&number].handed_on;
            for place in 0..self.hosted.len() {
                if self.slots[&number].emitted[at].envelope.number as usize != place {
                    self.hear(number, place, at)?;
                }
            }
            self.slot(number)?.handed_on += 1;
        }
        let mut line = String::from("settled");
        for node in &self.slots[&number].nodes {
            let value =
                node.ballot.as_ref().filter(|_| node.phase == Phase::Externalize).map(|ballot| Printed(&ballot.value));
            let _ = match value {
                Some(value) => write!(line, " {}={value}", node.name),
                None => write!(line, " {}=-", node.name),
            };
        }
        Ok(line)
    }
}

// ---- Lines.

enum Line {
    Net {
        number: u32,
        events: u64,
        bytes: u64,
        slots: usize,
        is_served: bool,
    },
    Node(u32, Name, Rc<Tree>),
    Roster(u32, Roster),
    Event(u32, u64, Event),
    /// A delivery to all hosted nodes.
    All(u32, Result<Message, Fault>),
    Settle(u32, u64),
    Drop(u32),
}

const MOST_BUDGET: u64 = 1 << 40;

fn budget(word: &str) -> Option<u64> {
    number_within(word, 0, MOST_BUDGET)
}

fn line(text: &str) -> Option<Line> {
    let fields = text.split(' ').collect::<Vec<_>>();
    let event = |net: &str, slot: &str, event: Event| Some(Line::Event(number(net)?, number(slot)?, event));
    match fields[..] {
        ["net", net, "events", events, "bytes", bytes, "slots", slots, ref served @ ..]
            if matches!(served, [] | ["served"]) =>
        {
            Some(Line::Net {
                number: number(net)?,
                events: budget(events)?,
                bytes: budget(bytes)?,
                slots: number_within(slots, 1, 64)? as usize,
                is_served: !served.is_empty(),
            })
        }
        ["node", net, node, slices] => Some(Line::Node(number(net)?, name(node)?, tree(slices)?)),
        ["roster", net, "own", own, "pair", pair, "bytes", bytes, "opens", opens, names] => {
            let listed = names.split(',').map(name).collect::<Option<Vec<_>>>()?;
            let names = listed.iter().copied().collect::<HashSet<_>>();
            let roster =
                Roster { own: budget(own)?, pair: budget(pair)?, bytes: budget(bytes)?, opens: budget(opens)?, names };
            let is_one = listed.len() <= 1024 && roster.names.len() == listed.len();
            is_one.then_some(Line::Roster(number(net)?, roster))
        }
        ["open", net, slot] => event(net, slot, Event::Open),
        ["close", net, slot] => event(net, slot, Event::Close),
        ["propose", net, slot, node, value] => event(net, slot, Event::Propose(name(node)?, any_value(value)?)),
        ["deliver", net, node, digits] => {
            delivery(net, node, if digits == "-" { decode(&[]) } else { decode(&hex(digits)?) })
        }
        ["say", net, node, from, slot, slices, words] => delivery(net, node, Ok(message(from, slot, slices, words)?)),
        ["hear", net, slot, node, from, kind, count] => {
            let kind = ["nom", "bal"].iter().position(|it| *it == kind)?;
            event(net, slot, Event::Hear(name(node)?, name(from)?, kind, number(count)?))
        }
        ["ntimer", net, slot, node, round] => event(net, slot, Event::NominationTimer(name(node)?, number(round)?)),
        ["btimer", net, slot, node, counter] => event(net, slot, Event::BallotTimer(name(node)?, number(counter)?)),
        ["reslice", net, slot, node, slices] => event(net, slot, Event::Reslice(name(node)?, tree(slices)?)),
        ["settle", net, slot] => Some(Line::Settle(number(net)?, number(slot)?)),
        ["drop", net] => Some(Line::Drop(number(net)?)),
        ["show" | "left", ..] => end(2, "plain: questions are left out"),
        _ => None,
    }
}

fn message(from: &str, slot: &str, slices: &str, words: &str) -> Option<Message> {
    Some(Message { sender: name(from)?, slot: number(slot)?, slices: tree(slices)?, statement: statement(words)? })
}

fn delivery(net: &str, node: &str, message: Result<Message, Fault>) -> Option<Line> {
    if node == "*" {
        return Some(Line::All(number(net)?, message));
    }
    let slot = message.as_ref().map_or(0, |message| message.slot);
    Some(Line::Event(number(net)?, slot, Event::Deliver(name(node)?, message)))
}

impl Event {
    fn node(&self) -> Option<Name> {
        match self {
            Event::Open | Event::Close => None,
            Event::Propose(name, _) | Event::Deliver(name, _) | Event::Hear(name, ..) => Some(*name),
            Event::NominationTimer(name, _) | Event::BallotTimer(name, _) | Event::Reslice(name, _) => Some(*name),
        }
    }
}

#[derive(Default)]
struct Host {
    networks: BTreeMap<u32, Network>,
    /// Numbers that events named before they were declared.
    named: HashSet<u32>,
    is_live: bool,
    /// The network and the slot whose history is kept.
    told: Option<(u32, u64)>,
}

const MOST_NETWORKS: usize = 4096;
const MOST_NODES: usize = 256;

/// A bad line.
struct Bad;

impl Host {
    /// The network of an event, or the refusal if no line declares it.
    fn begin(&mut self, number: u32) -> Result<Result<&mut Network, Refusal>, Bad> {
        match self.networks.get_mut(&number) {
            Some(network) if network.hosted.is_empty() => Err(Bad),
            Some(network) => {
                network.is_complete = true;
                Ok(Ok(network))
            }
            None if self.is_live => Ok(Err(Refusal::NO_SUCH_NETWORK)),
            None => {
                self.named.insert(number);
                Ok(Err(Refusal::NO_SUCH_NETWORK))
            }
        }
    }

    fn declare(&mut self, line: Line) -> Result<(), Bad> {
        match line {
            Line::Net { number, events, bytes, slots, is_served } => {
                let is_taken = self.networks.contains_key(&number) || self.networks.len() == MOST_NETWORKS;
                if is_taken || self.is_live && !is_served {
                    return Err(Bad);
                }
                let history = self.told.filter(|(told, _)| *told == number).map(|(_, slot)| (slot, Vec::new()));
                let budget = Purse { events, bytes, is_share: false };
                let is_complete = self.named.contains(&number);
                let (hosted, roster, openings, slots_open) = (Vec::new(), None, None, BTreeMap::new());
                let network = Network {
                    is_served,
                    is_complete,
                    budget,
                    openings,
                    most_slots: slots,
                    hosted,
                    roster,
                    slots: slots_open,
                    history,
                };
                self.networks.insert(number, network);
            }
            Line::Node(number, name, tree) => {
                let network = self
                    .networks
                    .get_mut(&number)
                    .filter(|it| !it.is_complete && it.hosted.len() < MOST_NODES)
                    .ok_or(Bad)?;
                let place = network.hosted.binary_search_by_key(&name, |(its, _)| *its).err().ok_or(Bad)?;
                network.hosted.insert(place, (name, tree));
            }
            Line::Roster(number, roster) => {
                let network =
                    self.networks.get_mut(&number).filter(|it| !it.is_complete && it.roster.is_none()).ok_or(Bad)?;
                network.openings = Some(Purse { events: roster.opens, bytes: 0, is_share: true });
                network.roster = Some(roster);
            }
            _ => unreachable!("it declares nothing"),
        }
        Ok(())
    }

    fn drop(&mut self, number: u32) -> Result<Result<(), Refusal>, Bad> {
        match self.networks.get(&number) {
            None => Ok(Err(Refusal::NO_SUCH_NETWORK)),
            Some(network) if !network.is_served => Err(Bad),
            Some(_) => {
                self.networks.remove(&number);
                self.named.remove(&number);
                Ok(Ok(()))
            }
        }
    }

    /// Runs a line of a script, and adds what it prints.
    fn run(&mut self, line: Line, out: &mut String) -> Result<(), Bad> {
        match line {
            Line::Net { .. } | Line::Node(..) | Line::Roster(..) => return self.declare(line),
            Line::Event(number, slot, event) => {
                let is_heard = matches!(event, Event::Hear(..));
                match self.begin(number)? {
                    Ok(network) if is_heard && network.is_served => return Err(Bad),
                    Ok(network) => network.run(slot, event, out),
                    Err(refusal) => add_line(out, refusal),
                }
            }
            Line::All(number, message) => match self.begin(number)? {
                Ok(network) if !network.is_served => return Err(Bad),
                Ok(network) => {
                    let slot = message.as_ref().map_or(0, |message| message.slot);
                    for place in 0..network.hosted.len() {
                        network.run(slot, Event::Deliver(network.hosted[place].0, message.clone()), out);
                    }
                }
                Err(refusal) => add_line(out, refusal),
            },
            Line::Settle(number, slot) => match self.begin(number)? {
                Ok(network) if network.is_served => return Err(Bad),
                Ok(network) => match network.settle(slot) {
                    Ok(line) => add_line(out, line),
                    Err(refusal) => add_line(out, refusal),
                },
                Err(refusal) => add_line(out, refusal),
            },
            Line::Drop(number) => match self.drop(number)? {
                Ok(()) => add_line(out, "ok"),
                Err(refusal) => add_line(out, refusal),
            },
        }
        Ok(())
    }

    /// Answers a line of a live host, and adds its block.
    fn serve(&mut self, at: usize, line: Line, out: &mut String) -> Result<(), Bad> {
        let closing = match line {
            Line::Net { .. } | Line::Node(..) | Line::Roster(..) => self.declare(line).map(|()| None)?,
            Line::Event(_, _, Event::Hear(..)) | Line::Settle(..) => return Err(Bad),
            Line::Event(number, slot, event) => match self.begin(number)? {
                Ok(network) => {
                    network.serve(at, number, slot, event, out).map_or_else(|it| Some(it.to_string()), is_stale)
                }
                Err(refusal) => Some(refusal.to_string()),
            },
            Line::All(number, message) => match self.begin(number)? {
                Ok(network) => {
                    network.serve_all(at, number, message, out).map_or_else(|it| Some(it.to_string()), is_stale)
                }
                Err(refusal) => Some(refusal.to_string()),
            },
            Line::Drop(number) => self.drop(number)?.err().map(|refusal| refusal.to_string()),
        };
        add_line(out, format_args!("{at} {}", closing.as_deref().unwrap_or("ok")));
        Ok(())
    }
}

fn is_stale(is_stale: bool) -> Option<String> {
    is_stale.then(|| "stale".into())
}

fn add_line(out: &mut String, text: impl Display) {
    let _ = writeln!(out, "{text}");
}

fn add_outs(out: &mut String, outs: &[Out]) {
    for it in outs {
        let _ = write!(out, " {it}");
    }
    out.push('\n');
}

impl Network {
    fn run(&mut self, slot: u64, event: Event, out: &mut String) {
        let first = self.emitted(slot);
        match self.apply(slot, event) {
            Ok(applied) => {
                out.push_str("ok");
                add_outs(out, &applied.outs);
                if self.is_served {
                    self.follow(slot, first, |_, _| ());
                }
            }
            Err(refusal) => add_line(out, refusal),
        }
    }

    /// Serves an event with its hearings, and answers whether it was stale.
    fn serve(&mut self, at: usize, net: u32, slot: u64, event: Event, out: &mut String) -> Result<bool, Refusal> {
        let (first, node) = (self.emitted(slot), event.node());
        let applied = self.apply(slot, event)?;
        let is_stale = applied.is_stale;
        let mut tell = |name: Name, heard: &Result<Applied, Refusal>| match heard {
            Ok(heard) if heard.outs.is_empty() => {}
            Ok(heard) => {
                let _ = write!(out, "{at} {net} {slot} {name}");
                add_outs(out, &heard.outs);
            }
            Err(refusal) => add_line(out, format_args!("{at} {net} {slot} {name} {refusal}")),
        };
        if let Some(name) = node {
            tell(name, &Ok(applied));
        }
        self.follow(slot, first, tell);
        Ok(is_stale)
    }

    fn serve_all(
        &mut self,
        at: usize,
        net: u32,
        message: Result<Message, Fault>,
        out: &mut String,
    ) -> Result<bool, Refusal> {
        let (slot, start) = (message.as_ref().map_or(0, |message| message.slot), out.len());
        let (mut first, mut is_applied, mut is_taken) = (None, false, false);
        for place in 0..self.hosted.len() {
            let name = self.hosted[place].0;
            match self.serve(at, net, slot, Event::Deliver(name, message.clone()), out) {
                Ok(is_stale) => {
                    is_applied = true;
                    is_taken |= !is_stale;
                }
                Err(refusal) => {
                    first = first.or(Some(refusal));
                    add_line(out, format_args!("{at} {net} {slot} {name} {refusal}"));
                }
            }
        }
        match first.filter(|_| !is_applied) {
            Some(refusal) => {
                out.truncate(start);
                Err(refusal)
            }
            None => Ok(!is_taken),
        }
    }
}

// ---- Comparisons.

/// What was applied at a slot, and what came of it.
struct Entry {
    step: Step,
    outs: Box<[Out]>,
}

#[derive(PartialEq)]
enum Step {
    Open,
    Close,
    Of(Name, Deed),
}

/// Whether what is handed in is the same: of a hearing that is not what is heard.
impl PartialEq for Deed {
    fn eq(&self, other: &Deed) -> bool {
        let key = |it: &Emission| (it.envelope.sender, it.envelope.statement.kind(), it.count);
        match (self, other) {
            (Deed::Propose(one), Deed::Propose(other)) => one == other,
            (Deed::Take(one), Deed::Take(other)) => {
                one.sender == other.sender && one.statement == other.statement && one.slices.tree == other.slices.tree
            }
            (Deed::Hear(one), Deed::Hear(other)) => key(one) == key(other),
            (Deed::NominationTimer(one), Deed::NominationTimer(other)) => one == other,
            (Deed::BallotTimer(one), Deed::BallotTimer(other)) => one == other,
            (Deed::Reslice(one), Deed::Reslice(other)) => one.tree == other.tree,
            _ => false,
        }
    }
}

impl Step {
    fn concerns(&self, members: &HashSet<Name>) -> bool {
        let Step::Of(node, deed) = self else { return true };
        members.contains(node)
            && match deed {
                Deed::Take(envelope) => members.contains(&envelope.sender),
                Deed::Hear(emission) => members.contains(&emission.envelope.sender),
                _ => true,
            }
    }
}

impl Network {
    fn entries(&self) -> &[Entry] {
        self.history.as_ref().map_or(&[], |(_, entries)| entries)
    }
}

/// The least set with the node, the names of its hosted members' slices, and those that members announced to members.
fn closure(network: &Network, node: Name) -> HashSet<Name> {
    let mut named = network.hosted.iter().map(|(name, tree)| (*name, *name, tree)).collect::<HashSet<_>>();
    named.extend(network.entries().iter().filter_map(|entry| match &entry.step {
        Step::Of(name, Deed::Take(envelope)) => Some((*name, envelope.sender, &envelope.slices.tree)),
        Step::Of(name, Deed::Reslice(slices)) => Some((*name, *name, &slices.tree)),
        _ => None,
    }));
    let (mut members, mut known) = (HashSet::from([node]), 0);
    while known < members.len() {
        known = members.len();
        for (receiver, sender, tree) in &named {
            if members.contains(receiver) && members.contains(sender) {
                let mut names = Vec::new();
                tree.names(&mut names);
                members.extend(names);
            }
        }
    }
    members
}

/// What is printed, and whether nothing differs.
fn compare(one: Option<&Network>, other: Option<&Network>, node: Name) -> (String, bool) {
    let hosted = |network: Option<&Network>, name: &Name| {
        network.and_then(|it| Some(it.hosted[it.place(*name).ok()?].1.clone()))
    };
    let Some(first) = one.filter(|it| it.place(node).is_ok()) else {
        return (format!("cast differs at {node}\n"), false);
    };
    let members = closure(first, node);
    if let Some(name) = members.iter().filter(|name| hosted(one, name) != hosted(other, name)).min() {
        return (format!("cast differs at {name}\n"), false);
    }
    let mut ones = first.entries().iter().filter(|it| it.step.concerns(&members));
    let mut others = other.map_or(&[][..], Network::entries).iter().filter(|it| it.step.concerns(&members));
    let mut place = 0;
    loop {
        match (ones.next(), others.next()) {
            (None, None) => break,
            (Some(one), Some(other)) if one.step == other.step => place += 1,
            _ => return (format!("inputs differ at {place}\n"), false),
        }
    }
    let mut outs = BTreeMap::<Name, String>::new();
    outs.extend(first.hosted.iter().filter(|(name, _)| members.contains(name)).map(|(name, _)| (*name, String::new())));
    for entry in first.entries() {
        if let Step::Of(name, _) = &entry.step
            && let Some(line) = outs.get_mut(name)
        {
            entry.outs.iter().for_each(|it| line.extend([" ".into(), it.to_string()]));
        }
    }
    let mut text = String::from("same\n");
    outs.iter().for_each(|(name, its)| add_line(&mut text, format_args!("{name}{its}")));
    (text, true)
}

// ---- Tables.

struct Table {
    node: Node,
    ground: Ground,
}

impl Table {
    fn begin(text: &str) -> Option<Table> {
        let ["self", word, slot, slices] = text.split(' ').collect::<Vec<_>>()[..] else { return None };
        let (name, mut ground) = (name(word)?, Ground::default());
        let (number_of_name, slices) = (ground.names.number(&name), ground.slices(&tree(slices)?));
        Some(Table { node: Node::new(name, number_of_name, number(slot)?, slices), ground })
    }

    fn run(&mut self, text: &str, out: &mut String) -> Option<()> {
        match text.split(' ').collect::<Vec<_>>()[..] {
            ["env", digits] => {
                let message = if digits == "-" { decode(&[]) } else { decode(&hex(digits)?) };
                match message {
                    Ok(message) => add_line(out, self.offer(message)),
                    Err(fault) => add_line(out, format_args!("bad {fault}")),
                }
            }
            ["put", from, slices, words] => {
                let slot = self.node.slot;
                let message =
                    Message { sender: name(from)?, slot, slices: tree(slices)?, statement: statement(words)? };
                add_line(out, self.offer(message));
            }
            ["ask", word] => {
                let ballot = ballot(word)?;
                let level = |it: &Statement| it.on_prepare((ballot.counter, &ballot.value));
                let backing = self.node.backers(BALLOTS, Votes, Nothing, level);
                add_line(out, if self.node.has_quorum(BALLOTS, backing) { "yes" } else { "no" });
            }
            ["reach"] => {
                let names = self.ground.names.names.iter().zip(0..).filter(|(_, number)| self.node.reach.has(*number));
                let mut names = names.map(|(name, _)| name).collect::<Vec<_>>();
                names.sort_unstable();
                add_line(out, names.iter().map(|name| name.to_string()).collect::<Vec<_>>().join(" "));
            }
            ["show"] => {
                let mut rows = self.node.rows.iter().flatten().flatten().collect::<Vec<_>>();
                rows.sort_by_key(|row| (row.sender, row.statement.kind()));
                rows.iter().for_each(|row| {
                    add_line(out, format_args!("{} {} {}", row.sender, row.slices.tree, row.statement))
                });
            }
            _ => return None,
        }
        Some(())
    }

    fn offer(&mut self, message: Message) -> &'static str {
        if message.slot != self.node.slot {
            return "other";
        }
        let envelope = self.ground.file(message);
        if self.node.take(envelope).is_some() { "replaced" } else { "stale" }
    }
}

// ---- The program.

fn end(status: i32, text: impl Display) -> ! {
    eprintln!("{text}");
    exit(status)
}

fn print(out: &mut impl Write, text: &mut String) {
    if out.write_all(text.as_bytes()).is_err() {
        end(4, "cannot write");
    }
    text.clear();
}

fn read(file: &str) -> Vec<u8> {
    std::fs::read(file).unwrap_or_else(|_| end(2, format_args!("cannot read {file}")))
}

/// A line that is to be run: neither empty nor a comment, and ASCII.
fn words(line: &[u8]) -> Result<Option<&str>, Bad> {
    match std::str::from_utf8(line) {
        Ok(text) if text.is_ascii() => Ok(Some(text).filter(|text| !text.is_empty() && !text.starts_with('#'))),
        _ => Err(Bad),
    }
}

/// Runs the lines of a file, and prints what they add.
fn each_line(data: &[u8], mut run: impl FnMut(&str, &mut String) -> Result<(), Bad>) {
    let (mut out, mut text) = (BufWriter::new(io::stdout().lock()), String::new());
    for (place, line) in data.split(|byte| *byte == b'\n').enumerate() {
        let ran = words(line).and_then(|words| words.map_or(Ok(()), |words| run(words, &mut text)));
        print(&mut out, &mut text);
        if ran.is_err() {
            let _ = out.flush();
            end(2, format_args!("bad script line {}", place + 1));
        }
    }
    if out.flush().is_err() {
        end(4, "cannot write");
    }
}

fn run_script(data: &[u8], host: &mut Host, is_quiet: bool) {
    each_line(data, |words, out| {
        host.run(line(words).ok_or(Bad)?, out)?;
        if is_quiet {
            out.clear();
        }
        Ok(())
    });
}

fn run_table(data: &[u8]) {
    let mut table = None;
    each_line(data, |words, out| {
        match &mut table {
            None => table = Some(Table::begin(words).ok_or(Bad)?),
            Some(table) => table.run(words, out).ok_or(Bad)?,
        }
        Ok(())
    });
}

const LONGEST_LINE: usize = 262_144;

/// Lines are answered as they come: what is answered is written out when no whole line is at hand any more.
fn serve() {
    let (mut input, mut out) =
        (BufReader::with_capacity(1 << 16, io::stdin().lock()), BufWriter::with_capacity(1 << 16, io::stdout().lock()));
    let (mut host, mut line_bytes, mut text) = (Host { is_live: true, ..Host::default() }, Vec::new(), String::new());
    for at in 1.. {
        line_bytes.clear();
        match input.read_until(b'\n', &mut line_bytes) {
            Ok(_) if line_bytes.pop() == Some(b'\n') => {}
            Ok(_) => break,
            Err(_) => end(2, "cannot read -"),
        }
        let words = if line_bytes.len() > LONGEST_LINE { Err(Bad) } else { words(&line_bytes) };
        let answered =
            words.and_then(|words| words.map_or(Ok(()), |words| host.serve(at, line(words).ok_or(Bad)?, &mut text)));
        if answered.is_err() {
            add_line(&mut text, format_args!("{at} bad"));
        }
        print(&mut out, &mut text);
        if !input.buffer().contains(&b'\n') && out.flush().is_err() {
            end(4, "cannot write");
        }
    }
}

fn main() {
    let words = std::env::args().skip(1).collect::<Vec<_>>();
    match words.iter().map(String::as_str).collect::<Vec<_>>()[..] {
        ["run", file] => run_script(&read(file), &mut Host::default(), false),
        ["table", file] => run_table(&read(file)),
        ["serve"] => serve(),
        ["compare", one, other, net, slot, node] => {
            let (Some(net), Some(slot), Some(node)) = (number(net), number(slot), name(node)) else {
                end(2, "bad usage")
            };
            let worlds = [one, other].map(|file| {
                let mut host = Host { told: Some((net, slot)), ..Host::default() };
                run_script(&read(file), &mut host, true);
                host
            });
            let (text, is_same) = compare(worlds[0].networks.get(&net), worlds[1].networks.get(&net), node);
            print!("{text}");
            exit(if is_same { 0 } else { 1 });
        }
        _ => end(2, "plain: run FILE | table FILE | serve | compare FILE FILE NET SLOT NODE"),
    }
}
