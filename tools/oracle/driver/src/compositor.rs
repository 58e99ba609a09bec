//! The compositor's end of the socket.

use crate::words::decode;
use crate::{argument, number, unhex};
use rustix::net::{recvmsg, sendmsg, RecvAncillaryBuffer, RecvFlags, SendAncillaryBuffer, SendAncillaryMessage, SendFlags};
use std::collections::VecDeque;
use std::fs::File;
use std::io::{IoSlice, IoSliceMut};
use std::mem::MaybeUninit;
use std::os::fd::AsFd;
use std::os::unix::net::UnixStream;
use wayland_backend::protocol::{Argument, ArgumentType};

pub struct Compositor {
    stream: Option<UnixStream>,
    null: File,
    /// The signatures of the requests accepted and not collected, in order.
    expected: VecDeque<&'static [ArgumentType]>,
    received: Vec<u8>,
}

fn padded(bytes: &[u8]) -> Vec<u8> {
    let mut out = (bytes.len() as u32).to_ne_bytes().to_vec();
    out.extend(bytes);
    out.resize(4 + bytes.len().div_ceil(4) * 4, 0);
    out
}

/// A word, and the bytes behind it.
fn word(bytes: &mut &[u8]) -> u32 {
    let (first, rest) = bytes.split_at(4);
    *bytes = rest;
    u32::from_ne_bytes(first.try_into().unwrap())
}

fn block(bytes: &mut &[u8]) -> Vec<u8> {
    let len = word(bytes) as usize;
    let (first, rest) = bytes.split_at(len.div_ceil(4) * 4);
    *bytes = rest;
    first[..len].to_vec()
}

fn read(kind: ArgumentType, bytes: &mut &[u8]) -> Argument<u32, ()> {
    match kind {
        ArgumentType::Int => Argument::Int(word(bytes) as i32),
        ArgumentType::Uint => Argument::Uint(word(bytes)),
        ArgumentType::Fixed => Argument::Fixed(word(bytes) as i32),
        ArgumentType::Object(_) => Argument::Object(word(bytes)),
        ArgumentType::NewId => Argument::NewId(word(bytes)),
        ArgumentType::Array => Argument::Array(Box::new(block(bytes))),
        ArgumentType::Fd => Argument::Fd(()),
        ArgumentType::Str(_) => {
            let text = block(bytes);
            let text = text.strip_suffix(&[0]).map(|t| Box::new(std::ffi::CString::new(t).unwrap()));
            Argument::Str(text)
        }
    }
}

impl Compositor {
    /// With the client's end.
    pub fn new() -> (Self, UnixStream) {
        let (stream, client) = UnixStream::pair().unwrap();
        let null = File::open("/dev/null").unwrap();
        (Self { stream: Some(stream), null, expected: VecDeque::new(), received: Vec::new() }, client)
    }

    pub fn queue(&mut self, sender: u32, opcode: u16, args: &[&str]) -> Result<(), String> {
        let mut body = Vec::new();
        let mut fds = Vec::new();
        for arg in args {
            let (kind, value) = arg.split_once(':').unwrap_or((arg, ""));
            match kind {
                "i" | "f" => body.extend(number::<i32>(value)?.to_ne_bytes()),
                "u" | "o" | "n" => body.extend(number::<u32>(value)?.to_ne_bytes()),
                "s" if value == "null" => body.extend(padded(&[])),
                "s" => body.extend(padded(decode(value)?.as_bytes_with_nul())),
                "a" => body.extend(padded(&unhex(value)?)),
                "h" => fds.push(self.null.as_fd()),
                _ => return Err(format!("script error: no argument: {arg}")),
            }
        }
        let mut frame = sender.to_ne_bytes().to_vec();
        frame.extend((((8 + body.len()) as u32) << 16 | u32::from(opcode)).to_ne_bytes());
        frame.extend(body);
        let mut control = SendAncillaryBuffer::new(&mut []);
        if !fds.is_empty() {
            control.push(SendAncillaryMessage::ScmRights(&fds));
        }
        let Some(stream) = &self.stream else { return Ok(()) };
        match sendmsg(stream, &[IoSlice::new(&frame)], &mut control, SendFlags::DONTWAIT | SendFlags::NOSIGNAL) {
            Ok(n) if n == frame.len() => Ok(()),
            other => Err(format!("script error: the socket does not take the frame: {other:?}")),
        }
    }

    pub fn hang_up(&mut self) {
        self.stream = None;
    }

    /// A request was accepted; its frame comes behind those accepted before.
    pub fn expect(&mut self, signature: &'static [ArgumentType]) {
        self.expected.push_back(signature);
    }

    /// The frames that have come, as lines.
    pub fn collect(&mut self) -> Vec<String> {
        if let Some(stream) = &self.stream {
            let mut buffer = [0; 4096];
            let mut space = [MaybeUninit::uninit(); 256];
            loop {
                let mut control = RecvAncillaryBuffer::new(&mut space);
                match recvmsg(stream, &mut [IoSliceMut::new(&mut buffer)], &mut control, RecvFlags::DONTWAIT) {
                    Ok(m) if m.bytes > 0 => self.received.extend(&buffer[..m.bytes]),
                    _ => break,
                }
                // takes what came along, so that it is closed
                for message in control.drain() {
                    drop(message);
                }
            }
        }
        let received = std::mem::take(&mut self.received);
        let mut bytes = &received[..];
        let mut lines = Vec::new();
        while !bytes.is_empty() {
            let sender = word(&mut bytes);
            let opcode = word(&mut bytes) & 0xffff;
            let signature = self.expected.pop_front().expect("every frame was accepted");
            let args = signature.iter().map(|&kind| read(kind, &mut bytes));
            let args: String = args.map(|a| format!(" {}", argument(&a, u32::to_string))).collect();
            lines.push(format!("sent {sender} {opcode}{args}"));
        }
        lines
    }
}
