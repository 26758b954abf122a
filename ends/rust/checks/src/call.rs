//! A call with all its inputs, and its text form: the left side of a vector line.
//!
//! A line is words with spaces between: the call's name, then its inputs in the order below, each as `name=value`. A
//! cluster is `sending=SHARES u=U r=R` or `receiving=SHARES u=U r=R`. Numbers, lists and bytes are told in
//! [`crate::text`], a window is `{ name=list ... }` and is told in [`crate::layout`]. `room` is how many places or
//! bytes the lent output has; before the call each of its bytes is 0xaa, and so is each byte of an answer array, of a
//! window to be opened and of holdings to be made fresh. What the call leaves behind is the line's right side, see
//! [`crate::answer`].
//!
//! ```text
//! counts shares=SHARES u=U r=R q=Q room=PLACES
//! first_pair CLUSTER CLUSTER q=Q k=K
//! resend_pair CLUSTER CLUSTER q=Q k=K n=N
//! open CLUSTER CLUSTER q=Q
//! judge WINDOW
//! send WINDOW k=K
//! report WINDOW member=MEMBER number=NUMBER mask=MASK room=BYTES
//! fresh
//! arrive holdings=NUMBER,MASK k=K
//! receiver_report holdings=NUMBER,MASK
//! read bytes=BYTES
//! write kind=KIND member=MEMBER number=NUMBER mask=MASK room=BYTES
//! plan input=BYTES
//! ```

use crate::layout::{window_fields, window_text, Words};
use crate::text::{bytes_text, numbers_text, Base, Parsed, Tokens};
use std::fmt::{Display, Formatter, Result as Shown};

/// Sizes of records, by which bytes are written in pieces.
pub const RECORD_BYTES: usize = 24;
pub const PLAN_RECORD_BYTES: usize = 12;

/// The names of the calls.
pub const NAMES: [&str; 13] = [
    "counts",
    "first_pair",
    "resend_pair",
    "open",
    "judge",
    "send",
    "report",
    "fresh",
    "arrive",
    "receiver_report",
    "read",
    "write",
    "plan",
];

#[derive(Clone, Debug, PartialEq, Eq)]
pub struct Cluster {
    pub shares: Vec<u32>,
    pub u: u32,
    pub r: u32,
}

/// The two clusters and the quantum that pairs and windows are made of.
#[derive(Clone, Debug, PartialEq, Eq)]
pub struct Link {
    pub sending: Cluster,
    pub receiving: Cluster,
    pub q: u32,
}

#[derive(Clone, Debug, PartialEq, Eq)]
pub enum Call {
    Counts {
        cluster: Cluster,
        q: u32,
        room: usize,
    },
    FirstPair {
        link: Link,
        k: u64,
    },
    ResendPair {
        link: Link,
        k: u64,
        n: u32,
    },
    Open {
        link: Link,
    },
    Judge {
        window: Box<Words>,
    },
    Send {
        window: Box<Words>,
        k: u64,
    },
    Report {
        window: Box<Words>,
        member: u32,
        number: u64,
        mask: u64,
        room: usize,
    },
    Fresh,
    Arrive {
        holdings: [u64; 2],
        k: u64,
    },
    ReceiverReport {
        holdings: [u64; 2],
    },
    Read {
        bytes: Vec<u8>,
    },
    Write {
        kind: u8,
        member: u8,
        number: u64,
        mask: u64,
        room: usize,
    },
    Plan {
        input: Vec<u8>,
    },
}

impl Call {
    pub fn name(&self) -> &'static str {
        let at = match self {
            Call::Counts { .. } => 0,
            Call::FirstPair { .. } => 1,
            Call::ResendPair { .. } => 2,
            Call::Open { .. } => 3,
            Call::Judge { .. } => 4,
            Call::Send { .. } => 5,
            Call::Report { .. } => 6,
            Call::Fresh => 7,
            Call::Arrive { .. } => 8,
            Call::ReceiverReport { .. } => 9,
            Call::Read { .. } => 10,
            Call::Write { .. } => 11,
            Call::Plan { .. } => 12,
        };
        NAMES[at]
    }

    /// The window that the call alters, if it alters one.
    pub fn altered_window(&self) -> Option<&Words> {
        match self {
            Call::Send { window, .. } | Call::Report { window, .. } => Some(window),
            _ => None,
        }
    }

    /// Reads the words of a call, its name first.
    pub fn parse(tokens: &mut Tokens) -> Parsed<Call> {
        Ok(match tokens.word()? {
            "counts" => {
                let cluster = cluster(tokens, "shares")?;
                Call::Counts {
                    cluster,
                    q: tokens.number("q")?,
                    room: tokens.room()?,
                }
            }
            "first_pair" => Call::FirstPair {
                link: link(tokens)?,
                k: tokens.number("k")?,
            },
            "resend_pair" => Call::ResendPair {
                link: link(tokens)?,
                k: tokens.number("k")?,
                n: tokens.number("n")?,
            },
            "open" => Call::Open { link: link(tokens)? },
            "judge" => Call::Judge {
                window: window(tokens)?,
            },
            "send" => Call::Send {
                window: window(tokens)?,
                k: tokens.number("k")?,
            },
            "report" => parse_report(tokens)?,
            "fresh" => Call::Fresh,
            "arrive" => Call::Arrive {
                holdings: holdings(tokens)?,
                k: tokens.number("k")?,
            },
            "receiver_report" => Call::ReceiverReport {
                holdings: holdings(tokens)?,
            },
            "read" => Call::Read {
                bytes: tokens.bytes("bytes")?,
            },
            "write" => parse_write(tokens)?,
            "plan" => Call::Plan {
                input: tokens.bytes("input")?,
            },
            name => return Err(format!("there is no call `{name}`")),
        })
    }
}

fn parse_report(tokens: &mut Tokens) -> Parsed<Call> {
    Ok(Call::Report {
        window: window(tokens)?,
        member: tokens.number("member")?,
        number: tokens.number("number")?,
        mask: tokens.number("mask")?,
        room: tokens.room()?,
    })
}

fn parse_write(tokens: &mut Tokens) -> Parsed<Call> {
    Ok(Call::Write {
        kind: tokens.number("kind")?,
        member: tokens.number("member")?,
        number: tokens.number("number")?,
        mask: tokens.number("mask")?,
        room: tokens.room()?,
    })
}

fn cluster(tokens: &mut Tokens, name: &str) -> Parsed<Cluster> {
    Ok(Cluster {
        shares: tokens.numbers(name)?,
        u: tokens.number("u")?,
        r: tokens.number("r")?,
    })
}

fn link(tokens: &mut Tokens) -> Parsed<Link> {
    let (sending, receiving) = (cluster(tokens, "sending")?, cluster(tokens, "receiving")?);
    Ok(Link {
        sending,
        receiving,
        q: tokens.number("q")?,
    })
}

fn window(tokens: &mut Tokens) -> Parsed<Box<Words>> {
    tokens.expect("{")?;
    window_fields(tokens)
}

/// Reads `holdings=NUMBER,MASK`.
pub fn holdings(tokens: &mut Tokens) -> Parsed<[u64; 2]> {
    let words: Vec<u64> = tokens.numbers("holdings")?;
    words
        .try_into()
        .map_err(|_| "holdings are a number and a mask".to_string())
}

pub fn holdings_text(&[number, mask]: &[u64; 2]) -> String {
    format!("holdings={number},{mask:#x}")
}

fn cluster_text(name: &str, Cluster { shares, u, r }: &Cluster) -> String {
    format!("{name}={} u={u} r={r}", numbers_text(shares, Base::Decimal))
}

fn link_text(Link { sending, receiving, q }: &Link) -> String {
    format!(
        "{} {} q={q}",
        cluster_text("sending", sending),
        cluster_text("receiving", receiving)
    )
}

impl Display for Call {
    fn fmt(&self, to: &mut Formatter) -> Shown {
        write!(to, "{}", self.name())?;
        match self {
            Call::Counts { cluster, q, room } => {
                write!(to, " {} q={q} room={room}", cluster_text("shares", cluster))
            }
            Call::FirstPair { link, k } => write!(to, " {} k={k}", link_text(link)),
            Call::ResendPair { link, k, n } => write!(to, " {} k={k} n={n}", link_text(link)),
            Call::Open { link } => write!(to, " {}", link_text(link)),
            Call::Judge { window } => write!(to, " {}", window_text(window)),
            Call::Send { window, k } => write!(to, " {} k={k}", window_text(window)),
            Call::Report {
                window,
                member,
                number,
                mask,
                room,
            } => {
                write!(
                    to,
                    " {} member={member} number={number} mask={mask:#x} room={room}",
                    window_text(window)
                )
            }
            Call::Fresh => Ok(()),
            Call::Arrive { holdings, k } => write!(to, " {} k={k}", holdings_text(holdings)),
            Call::ReceiverReport { holdings } => write!(to, " {}", holdings_text(holdings)),
            Call::Read { bytes } => write!(to, " bytes={}", bytes_text(bytes, RECORD_BYTES)),
            Call::Write {
                kind,
                member,
                number,
                mask,
                room,
            } => {
                write!(
                    to,
                    " kind={kind} member={member} number={number} mask={mask:#x} room={room}"
                )
            }
            Call::Plan { input } => write!(to, " input={}", bytes_text(input, PLAN_RECORD_BYTES)),
        }
    }
}
