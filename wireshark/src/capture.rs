//! A capture file of TCP connections between a controller and the device, both on 127.0.0.1.
//!
//! Nothing goes over a network: each segment becomes a frame of the file, and is acknowledged by another.

use std::fmt;

/// The device's TCP port.
pub const PORT: u16 = 65_012;
/// The controller's port of the first connection; no dissector is registered for those behind it.
const FIRST_CONTROLLER: u16 = 50_000;
/// The longest segment of an Ethernet frame of 1,500 bytes without options.
pub const SEGMENT: usize = 1_460;
const ADDRESS: [u8; 4] = [127, 0, 0, 1];
const TCP: u8 = 6;
const SYN: u8 = 0x02;
const ACK: u8 = 0x10;
const PSH: u8 = 0x08;
const FIN: u8 = 0x01;

/// Who sends.
#[derive(Clone, Copy, Debug, PartialEq, Eq, Hash, PartialOrd, Ord)]
pub enum Side {
    Controller,
    Device,
}

impl fmt::Display for Side {
    fn fmt(&self, f: &mut fmt::Formatter) -> fmt::Result {
        f.write_str(match self {
            Side::Controller => "controller",
            Side::Device => "device",
        })
    }
}

impl Side {
    fn other(self) -> Side {
        match self {
            Side::Controller => Side::Device,
            Side::Device => Side::Controller,
        }
    }
}

/// The next sequence number of each side.
#[derive(Clone, Copy, Debug)]
struct Stream {
    port: u16,
    controller: u32,
    device: u32,
}

impl Stream {
    fn port(&self, side: Side) -> u16 {
        match side {
            Side::Controller => self.port,
            Side::Device => PORT,
        }
    }

    fn next(&mut self, side: Side) -> &mut u32 {
        match side {
            Side::Controller => &mut self.controller,
            Side::Device => &mut self.device,
        }
    }
}

/// A capture file as it grows.
#[derive(Clone, Debug)]
pub struct Capture {
    file: Vec<u8>,
    frames: u32,
    segments: usize,
    streams: Vec<Stream>,
}

impl Default for Capture {
    fn default() -> Capture {
        // version 2.4, times in UTC, frames of up to 256 KB, Ethernet
        let mut file = 0xA1B2_C3D4_u32.to_le_bytes().to_vec();
        file.extend([2, 0, 4, 0]);
        file.extend([0; 8]);
        file.extend(0x0004_0000_u32.to_le_bytes());
        file.extend(1_u32.to_le_bytes());
        Capture {
            file,
            frames: 0,
            segments: 0,
            streams: Vec::new(),
        }
    }
}

impl Capture {
    pub fn file(&self) -> &[u8] {
        &self.file
    }

    pub fn frames(&self) -> u32 {
        self.frames
    }

    /// How many frames carry bytes of messages.
    pub fn segments(&self) -> usize {
        self.segments
    }

    /// Opens a connection; its number is the one that tshark gives the stream.
    pub fn open(&mut self) -> usize {
        let number = self.streams.len();
        let port = FIRST_CONTROLLER + number as u16;
        // the first connection's numbers go round, as they may
        let controller = (number as u32).wrapping_mul(0x0100_0000).wrapping_sub(20);
        let device = controller.wrapping_add(0x4000_0000);
        self.streams.push(Stream {
            port,
            controller,
            device,
        });
        self.frame(number, Side::Controller, SYN, &[]);
        self.frame(number, Side::Device, SYN | ACK, &[]);
        self.frame(number, Side::Controller, ACK, &[]);
        number
    }

    /// Sends bytes as one segment, or as several where they are longer than a segment may be.
    pub fn send(&mut self, stream: usize, from: Side, bytes: &[u8]) {
        for segment in bytes.chunks(SEGMENT) {
            self.segments += 1;
            self.frame(stream, from, PSH | ACK, segment);
            self.frame(stream, from.other(), ACK, &[]);
        }
    }

    pub fn close(&mut self, stream: usize, from: Side) {
        self.frame(stream, from, FIN | ACK, &[]);
        self.frame(stream, from.other(), FIN | ACK, &[]);
        self.frame(stream, from, ACK, &[]);
    }

    fn frame(&mut self, number: usize, from: Side, flags: u8, data: &[u8]) {
        let stream = &mut self.streams[number];
        let ports = (stream.port(from), stream.port(from.other()));
        let (sequence, heard) = (*stream.next(from), *stream.next(from.other()));
        let acknowledged = if flags & ACK == 0 { 0 } else { heard };
        // SYN and FIN count as a byte each
        let taken = data.len() as u32 + u32::from(flags & (SYN | FIN) != 0);
        *stream.next(from) = sequence.wrapping_add(taken);
        let segment = segment(ports, (sequence, acknowledged), flags, data);
        // two made-up addresses of the local kind, then IPv4
        let mut frame = vec![2, 0, 0, 0, 0, 1, 2, 0, 0, 0, 0, 2, 8, 0];
        frame.extend(packet(self.frames as u16, &segment));
        self.record(&frame);
    }

    /// The frames come a millisecond apart.
    fn record(&mut self, frame: &[u8]) {
        let length = (frame.len() as u32).to_le_bytes();
        let (seconds, milliseconds) = (self.frames / 1_000, self.frames % 1_000);
        self.file.extend(seconds.to_le_bytes());
        self.file.extend((milliseconds * 1_000).to_le_bytes());
        self.file.extend(length);
        self.file.extend(length);
        self.file.extend(frame);
        self.frames += 1;
    }
}

/// A TCP segment with its checksum.
fn segment(ports: (u16, u16), numbers: (u32, u32), flags: u8, data: &[u8]) -> Vec<u8> {
    let mut bytes = ports.0.to_be_bytes().to_vec();
    bytes.extend(ports.1.to_be_bytes());
    bytes.extend(numbers.0.to_be_bytes());
    bytes.extend(numbers.1.to_be_bytes());
    // five words of header, the largest window, no checksum yet, nothing urgent
    bytes.extend([0x50, flags, 0xFF, 0xFF, 0, 0, 0, 0]);
    bytes.extend(data);
    let mut summed = [ADDRESS, ADDRESS].concat();
    summed.extend([0, TCP]);
    summed.extend((bytes.len() as u16).to_be_bytes());
    summed.extend(&bytes);
    bytes[16..18].copy_from_slice(&checksum(&summed).to_be_bytes());
    bytes
}

/// An IPv4 packet with its checksum.
fn packet(identification: u16, segment: &[u8]) -> Vec<u8> {
    let mut bytes = vec![0x45, 0];
    bytes.extend((20 + segment.len() as u16).to_be_bytes());
    bytes.extend(identification.to_be_bytes());
    // not to be fragmented, 64 hops, no checksum yet
    bytes.extend([0x40, 0, 64, TCP, 0, 0]);
    bytes.extend([ADDRESS, ADDRESS].concat());
    let sum = checksum(&bytes);
    bytes[10..12].copy_from_slice(&sum.to_be_bytes());
    bytes.extend(segment);
    bytes
}

/// The Internet's checksum: the complement of the sum in ones' complement.
fn checksum(bytes: &[u8]) -> u16 {
    let words = bytes.chunks(2).map(|pair| {
        let low = pair.get(1).copied().unwrap_or(0);
        u32::from(u16::from_be_bytes([pair[0], low]))
    });
    let mut sum: u32 = words.sum();
    while sum > 0xFFFF {
        sum = (sum & 0xFFFF) + (sum >> 16);
    }
    !(sum as u16)
}

#[cfg(test)]
mod tests {
    use super::*;

    /// The example of RFC 1071: its words add up to DDF2.
    #[test]
    fn a_checksum_is_that_of_the_rfc() {
        let bytes = [0x00, 0x01, 0xF2, 0x03, 0xF4, 0xF5, 0xF6, 0xF7];
        assert_eq!(checksum(&bytes), !0xDDF2);
        assert_eq!(checksum(&[0x12]), !0x1200);
    }

    #[test]
    fn a_long_message_is_cut_into_segments_that_are_acknowledged() {
        let mut capture = Capture::default();
        let stream = capture.open();
        assert_eq!((stream, capture.frames()), (0, 3));
        capture.send(stream, Side::Device, &[0; 2 * SEGMENT + 1]);
        assert_eq!((capture.segments(), capture.frames()), (3, 9));
        let sizes = 24 + 9 * (16 + 14 + 20 + 20) + 2 * SEGMENT + 1;
        assert_eq!(capture.file().len(), sizes);
    }
}
