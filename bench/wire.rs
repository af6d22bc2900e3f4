//! The same loops as `lego_bench` over a plain Rust codec of the same messages, for comparison:
//! `wire decode|check|encode small|large|actions ROUNDS`.

use std::env;

#[derive(Clone, Debug, PartialEq)]
enum Action {
    Output { port: u16, max_len: u16 },
    SetVlanVid(u16),
    SetVlanPcp(u8),
    StripVlan,
    SetDlSrc([u8; 6]),
    SetDlDst([u8; 6]),
    SetNwSrc(u32),
    SetNwDst(u32),
    SetNwTos(u8),
    SetTpSrc(u16),
    SetTpDst(u16),
    Enqueue { port: u16, queue: u32 },
    Vendor(Vec<u8>),
}

#[derive(Debug)]
enum Message {
    Payload { kind: u8, payload: Vec<u8> },
    Empty { kind: u8 },
    PacketIn { buffer_id: u32, total_len: u16, in_port: u16, reason: u8, payload: Vec<u8> },
    PacketOut { buffer_id: u32, in_port: u16, actions: Vec<Action>, payload: Vec<u8> },
    FlowMod {
        matching: [u8; 40],
        cookie: u64,
        command: u16,
        idle: u16,
        hard: u16,
        priority: u16,
        buffer_id: u32,
        out_port: u16,
        flags: u16,
        actions: Vec<Action>,
    },
}

#[derive(Debug)]
enum Fault {
    BadVersion,
    BadType,
    BadLength,
    BadAction { place: usize },
}

fn u16_at(bytes: &[u8], at: usize) -> u16 {
    u16::from_be_bytes([bytes[at], bytes[at + 1]])
}

fn u32_at(bytes: &[u8], at: usize) -> u32 {
    u32::from_be_bytes(bytes[at..at + 4].try_into().unwrap())
}

fn u64_at(bytes: &[u8], at: usize) -> u64 {
    u64::from_be_bytes(bytes[at..at + 8].try_into().unwrap())
}

/// The normal form of a match: ignored bits and pads are 0.
fn normal(bytes: &[u8]) -> [u8; 40] {
    let mut m: [u8; 40] = bytes.try_into().unwrap();
    let wild = u32_at(&m, 0);
    let mut kept = wild & 0x3f_ffff;
    for (bit, from, to) in [
        (0, 4, 6), (1, 18, 20), (2, 6, 12), (3, 12, 18), (4, 22, 24), (5, 25, 26),
        (6, 36, 38), (7, 38, 40), (20, 20, 21), (21, 24, 25),
    ] {
        if wild >> bit & 1 == 1 {
            m[from..to].fill(0);
        }
    }
    for (shift, at) in [(8, 28), (14, 32)] {
        let ignored = (wild >> shift & 63).min(32);
        kept = kept & !(63 << shift) | ignored << shift;
        let address = u32_at(&m, at);
        let address = if ignored == 32 { 0 } else { address >> ignored << ignored };
        m[at..at + 4].copy_from_slice(&address.to_be_bytes());
    }
    m[21] = 0;
    m[26] = 0;
    m[27] = 0;
    m[0..4].copy_from_slice(&kept.to_be_bytes());
    m
}

/// Calls `each` with each action, or answers the place of the first fault.
fn actions(bytes: &[u8], mut each: impl FnMut(u16, &[u8])) -> Result<(), Fault> {
    let mut at = 0;
    while at < bytes.len() {
        let left = bytes.len() - at;
        if left < 4 {
            return Err(Fault::BadAction { place: at });
        }
        let (kind, len) = (u16_at(bytes, at), usize::from(u16_at(bytes, at + 2)));
        if len < 8 || len % 8 != 0 || len > left {
            return Err(Fault::BadAction { place: at });
        }
        let due = match kind {
            0..=3 | 6..=10 => 8,
            4 | 5 | 11 => 16,
            0xffff => len,
            _ => return Err(Fault::BadAction { place: at }),
        };
        if len != due {
            return Err(Fault::BadAction { place: at });
        }
        each(kind, &bytes[at + 4..at + len]);
        at += len;
    }
    Ok(())
}

fn read_actions(bytes: &[u8]) -> Result<Vec<Action>, Fault> {
    let mut all = Vec::new();
    actions(bytes, |kind, body| {
        all.push(match kind {
            0 => Action::Output { port: u16_at(body, 0), max_len: u16_at(body, 2) },
            1 => Action::SetVlanVid(u16_at(body, 0)),
            2 => Action::SetVlanPcp(body[0]),
            3 => Action::StripVlan,
            4 => Action::SetDlSrc(body[0..6].try_into().unwrap()),
            5 => Action::SetDlDst(body[0..6].try_into().unwrap()),
            6 => Action::SetNwSrc(u32_at(body, 0)),
            7 => Action::SetNwDst(u32_at(body, 0)),
            8 => Action::SetNwTos(body[0]),
            9 => Action::SetTpSrc(u16_at(body, 0)),
            10 => Action::SetTpDst(u16_at(body, 0)),
            11 => Action::Enqueue { port: u16_at(body, 0), queue: u32_at(body, 8) },
            _ => Action::Vendor(body.to_vec()),
        })
    })?;
    Ok(all)
}

fn front(bytes: &[u8]) -> Result<u8, Fault> {
    if bytes.len() < 8 {
        return Err(Fault::BadLength);
    }
    if bytes[0] != 1 {
        return Err(Fault::BadVersion);
    }
    let kind = bytes[1];
    if kind > 21 {
        return Err(Fault::BadType);
    }
    let len = bytes.len();
    if usize::from(u16_at(bytes, 2)) != len {
        return Err(Fault::BadLength);
    }
    let fits = match kind {
        0 | 2 | 3 => true,
        5 | 7 | 18 | 19 => len == 8,
        10 => len >= 18,
        13 => len >= 16 && usize::from(u16_at(bytes, 14)) <= len - 16,
        14 => len >= 72,
        _ => len >= 12,
    };
    if fits { Ok(kind) } else { Err(Fault::BadLength) }
}

fn decode(bytes: &[u8]) -> Result<(u32, Message), Fault> {
    let kind = front(bytes)?;
    let message = match kind {
        5 | 7 | 18 | 19 => Message::Empty { kind },
        10 => Message::PacketIn {
            buffer_id: u32_at(bytes, 8),
            total_len: u16_at(bytes, 12),
            in_port: u16_at(bytes, 14),
            reason: bytes[16],
            payload: bytes[18..].to_vec(),
        },
        13 => {
            let len = usize::from(u16_at(bytes, 14));
            Message::PacketOut {
                buffer_id: u32_at(bytes, 8),
                in_port: u16_at(bytes, 12),
                actions: read_actions(&bytes[16..16 + len])?,
                payload: bytes[16 + len..].to_vec(),
            }
        }
        14 => Message::FlowMod {
            matching: normal(&bytes[8..48]),
            cookie: u64_at(bytes, 48),
            command: u16_at(bytes, 56),
            idle: u16_at(bytes, 58),
            hard: u16_at(bytes, 60),
            priority: u16_at(bytes, 62),
            buffer_id: u32_at(bytes, 64),
            out_port: u16_at(bytes, 68),
            flags: u16_at(bytes, 70),
            actions: read_actions(&bytes[72..])?,
        },
        _ => Message::Payload { kind, payload: bytes[8..].to_vec() },
    };
    Ok((u32_at(bytes, 4), message))
}

fn check(bytes: &[u8]) -> Result<(), Fault> {
    match front(bytes)? {
        13 => {
            let len = usize::from(u16_at(bytes, 14));
            actions(&bytes[16..16 + len], |_, _| {})
        }
        14 => actions(&bytes[72..], |_, _| {}),
        _ => Ok(()),
    }
}

fn write_actions(out: &mut Vec<u8>, actions: &[Action]) {
    for action in actions {
        let head = |out: &mut Vec<u8>, kind: u16, len: u16| {
            out.extend_from_slice(&kind.to_be_bytes());
            out.extend_from_slice(&len.to_be_bytes());
        };
        match action {
            Action::Output { port, max_len } => {
                head(out, 0, 8);
                out.extend_from_slice(&port.to_be_bytes());
                out.extend_from_slice(&max_len.to_be_bytes());
            }
            Action::SetVlanVid(v) => { head(out, 1, 8); out.extend_from_slice(&v.to_be_bytes()); out.extend_from_slice(&[0; 2]); }
            Action::SetVlanPcp(v) => { head(out, 2, 8); out.extend_from_slice(&[*v, 0, 0, 0]); }
            Action::StripVlan => { head(out, 3, 8); out.extend_from_slice(&[0; 4]); }
            Action::SetDlSrc(a) => { head(out, 4, 16); out.extend_from_slice(a); out.extend_from_slice(&[0; 6]); }
            Action::SetDlDst(a) => { head(out, 5, 16); out.extend_from_slice(a); out.extend_from_slice(&[0; 6]); }
            Action::SetNwSrc(a) => { head(out, 6, 8); out.extend_from_slice(&a.to_be_bytes()); }
            Action::SetNwDst(a) => { head(out, 7, 8); out.extend_from_slice(&a.to_be_bytes()); }
            Action::SetNwTos(t) => { head(out, 8, 8); out.extend_from_slice(&[*t, 0, 0, 0]); }
            Action::SetTpSrc(p) => { head(out, 9, 8); out.extend_from_slice(&p.to_be_bytes()); out.extend_from_slice(&[0; 2]); }
            Action::SetTpDst(p) => { head(out, 10, 8); out.extend_from_slice(&p.to_be_bytes()); out.extend_from_slice(&[0; 2]); }
            Action::Enqueue { port, queue } => {
                head(out, 11, 16);
                out.extend_from_slice(&port.to_be_bytes());
                out.extend_from_slice(&[0; 6]);
                out.extend_from_slice(&queue.to_be_bytes());
            }
            Action::Vendor(body) => { head(out, 0xffff, body.len() as u16 + 4); out.extend_from_slice(body); }
        }
    }
}

fn encode(xid: u32, message: &Message) -> Vec<u8> {
    let mut out = vec![1, 0, 0, 0];
    out.extend_from_slice(&xid.to_be_bytes());
    out[1] = match message {
        Message::Payload { kind, payload } => { out.reserve(payload.len()); out.extend_from_slice(payload); *kind }
        Message::Empty { kind } => *kind,
        Message::PacketIn { buffer_id, total_len, in_port, reason, payload } => {
            out.reserve(10 + payload.len());
            out.extend_from_slice(&buffer_id.to_be_bytes());
            out.extend_from_slice(&total_len.to_be_bytes());
            out.extend_from_slice(&in_port.to_be_bytes());
            out.extend_from_slice(&[*reason, 0]);
            out.extend_from_slice(payload);
            10
        }
        Message::PacketOut { buffer_id, in_port, actions, payload } => {
            out.extend_from_slice(&buffer_id.to_be_bytes());
            out.extend_from_slice(&in_port.to_be_bytes());
            out.extend_from_slice(&[0; 2]);
            write_actions(&mut out, actions);
            let len = (out.len() - 16) as u16;
            out[14..16].copy_from_slice(&len.to_be_bytes());
            out.extend_from_slice(payload);
            13
        }
        Message::FlowMod { matching, cookie, command, idle, hard, priority, buffer_id, out_port, flags, actions } => {
            out.extend_from_slice(matching);
            out.extend_from_slice(&cookie.to_be_bytes());
            for half in [command, idle, hard, priority] {
                out.extend_from_slice(&half.to_be_bytes());
            }
            out.extend_from_slice(&buffer_id.to_be_bytes());
            out.extend_from_slice(&out_port.to_be_bytes());
            out.extend_from_slice(&flags.to_be_bytes());
            write_actions(&mut out, actions);
            14
        }
    };
    let len = out.len() as u16;
    out[2..4].copy_from_slice(&len.to_be_bytes());
    out
}

const OUTPUT: [u8; 8] = [0, 0, 0, 8, 0, 2, 0, 0];

fn with_header(kind: u8, size: u16) -> Vec<u8> {
    let mut bytes = vec![0; usize::from(size)];
    bytes[0] = 1;
    bytes[1] = kind;
    bytes[2..4].copy_from_slice(&size.to_be_bytes());
    bytes[7] = 7;
    bytes
}

fn corpus(name: &str) -> Vec<Vec<u8>> {
    let mut flow_mod = with_header(14, 80);
    flow_mod[8..14].copy_from_slice(&[0, 0x38, 0x20, 0xfe, 0, 1]);
    flow_mod[72..].copy_from_slice(&OUTPUT);
    let mut packet_out = with_header(13, 8016);
    packet_out[8..16].copy_from_slice(&[0xff, 0xff, 0xff, 0xff, 0, 1, 0x1f, 0x40]);
    for at in (16..8016).step_by(8) {
        packet_out[at..at + 8].copy_from_slice(&OUTPUT);
    }
    match name {
        "small" => (0..1000)
            .flat_map(|_| [with_header(18, 8), with_header(2, 16), flow_mod.clone()])
            .collect(),
        "large" => (0..16).map(|_| with_header(10, 65_535)).collect(),
        "actions" => (0..16).map(|_| packet_out.clone()).collect(),
        _ => panic!("no such corpus"),
    }
}

fn main() {
    let words: Vec<String> = env::args().skip(1).collect();
    let all = corpus(&words[1]);
    let rounds: u64 = words[2].parse().unwrap();
    let values: Vec<_> = all.iter().filter_map(|m| decode(m).ok()).collect();
    let (mut messages, mut bytes) = (0u64, 0u64);
    for _ in 0..rounds {
        match words[0].as_str() {
            "decode" => {
                for m in &all {
                    if std::hint::black_box(decode(std::hint::black_box(m))).is_ok() {
                        messages += 1;
                        bytes += m.len() as u64;
                    }
                }
            }
            "check" => {
                for m in &all {
                    if std::hint::black_box(check(std::hint::black_box(m))).is_ok() {
                        messages += 1;
                        bytes += m.len() as u64;
                    }
                }
            }
            _ => {
                for (xid, m) in &values {
                    let out = std::hint::black_box(encode(*xid, std::hint::black_box(m)));
                    messages += 1;
                    bytes += out.len() as u64;
                }
            }
        }
    }
    println!("messages {messages} bytes {bytes}");
}
