//! Every cut of every method's messages is refused where the first number or
//! run begins that is no longer whole.

mod common;

use common::*;
use second::hex::to_hex;
use second::methods::{Field, Kind, GETCREDS, METHODS};

/// A message and the begin and end of each of its numbers and runs.
struct Sample {
    bytes: Vec<u8>,
    elements: Vec<(usize, usize)>,
}

impl Sample {
    fn new(kind: u8) -> Sample {
        Sample { bytes: vec![0, 0, 0, 1, kind], elements: Vec::new() }
    }

    fn add(&mut self, bytes: &[u8]) {
        let begin = self.bytes.len();
        self.bytes.extend_from_slice(bytes);
        self.elements.push((begin, self.bytes.len()));
    }

    fn add_run(&mut self, bytes: &[u8]) {
        self.add(&(bytes.len() as u32).to_be_bytes());
        self.add(bytes);
    }

    fn add_field(&mut self, field: &Field) {
        match field.kind {
            Kind::Text | Kind::Data => self.add_run(b"\xe2\x82\xac"),
            Kind::Names => {
                self.add(&[0, 0, 0, 3]);
                self.add_run(b"ab");
                self.add_run(b"");
                self.add_run(b"c");
            }
            kind => self.add(&vec![0x81; kind.width().unwrap()]),
        }
    }

    /// The place of the refusal when so many bytes are left.
    fn place(&self, length: usize) -> usize {
        self.elements.iter().find(|element| element.1 > length).unwrap().0
    }
}

#[test]
fn requests() {
    for method in &METHODS {
        let mut sample = Sample::new(method.number);
        method.request.iter().for_each(|field| sample.add_field(field));
        assert_eq!(request_known(&sample.bytes), Some(sample.bytes.len()));
        for length in 5..sample.bytes.len() {
            let refusal = request_refusal(&to_hex(&sample.bytes[..length]));
            assert_eq!(refusal, (4, sample.place(length)), "{}", method.name);
        }
    }
}

#[test]
fn replies() {
    for method in &METHODS {
        let mut sample = Sample::new(method.reply_number());
        if method.number != GETCREDS {
            // The length of the data of a read reply.
            sample.add(&[0, 0, 0, 3]);
        }
        method.reply.iter().for_each(|field| sample.add_field(field));
        assert_eq!(reply_known(&sample.bytes), Some(sample.bytes.len()));
        for length in 5..sample.bytes.len() {
            let refusal = reply_refusal(&to_hex(&sample.bytes[..length]));
            assert_eq!(refusal, (4, sample.place(length)), "{}", method.name);
        }
    }
}
