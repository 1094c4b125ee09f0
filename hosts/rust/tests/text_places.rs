//! A message is refused as malformed text where `core` says that the string stops being valid, and the same message, cut
//! there, is refused where the string begins: in every text of both readers. The listing of a request has that place; the
//! front's answer has none.

mod random;
mod texts;

use random::Random;
use texts::random_text;
use tushalets::numbers::refusals::{MALFORMED_TEXT, TRUNCATED};
use tushalets::{front, list_request, read_reply, read_request, Fronted, Refusal, LONGEST_LISTING};

const ROUNDS: usize = 40_000;

/// The types of messages by what they have: a text; two texts; a text and data; a resolved path, credentials, names.
const ONE_TEXT: [u8; 5] = [0x02, 0x03, 0x0f, 0x13, 0x15];
const TWO_TEXTS: [u8; 2] = [0x04, 0x05];
const WRITE: u8 = 0x11;
const READLINK_REPLY: u8 = 0x83;
const READDIR_REPLY: u8 = 0x93;
const GETCREDS_REPLY: u8 = 0x97;

const LENGTH_SIZE: usize = 4;
const RESULT: [u8; 4] = [0; 4];

/// What stands behind the path of a write request: one byte of data that is no text, offset and handle.
const BEHIND_PATH: [u8; 21] = [0, 0, 0, 1, 0xff, 0, 0, 0, 0, 0, 0, 0, 0, 0, 0, 0, 0, 0, 0, 0, 0];

/// A message, and where the bytes of the text begin that is tried.
struct Tried {
    message: Vec<u8>,
    start: usize,
    text: Vec<u8>,
}

impl Tried {
    fn new(type_number: u8, before: &[u8], text: &[u8], behind: &[u8]) -> Tried {
        let header = [0, 0, 0, 9, type_number];
        let start = header.len() + before.len() + LENGTH_SIZE;
        let message = [&header[..], before, &string(text), behind].concat();
        Tried { message, start, text: text.to_vec() }
    }

    /// The refusal, where `core` does not take the text.
    fn refusal(&self) -> Option<Refusal> {
        let error = core::str::from_utf8(&self.text).err()?;
        Some(Refusal { number: MALFORMED_TEXT, place: self.start + error.valid_up_to() })
    }

    /// A reader refuses the message as it should, and the message cut there where the text begins.
    fn compare(&self, refusal_of: impl Fn(&[u8]) -> Option<Refusal>) {
        let expected = self.refusal();
        assert_eq!(refusal_of(&self.message), expected, "{:02x?}", self.message);
        if let Some(Refusal { place, .. }) = expected {
            let begins = Refusal { number: TRUNCATED, place: self.start };
            assert_eq!(refusal_of(&self.message[..place]), Some(begins), "{:02x?}", self.message);
        }
    }

    fn compare_request(&self) {
        self.compare(|message| read_request(message).err());
        let Some(refusal) = self.refusal() else { return };
        let mut out = [0x55; LONGEST_LISTING];
        let len = list_request(&self.message, &mut out).expect("every request is listed");
        assert_eq!(core::str::from_utf8(&out[..len]), Ok(&*format!("refused 5 at {}\n", refusal.place)));
        let mut out = [0x55; 10];
        assert_eq!(front(&self.message, &mut out), Ok(Fronted::Stored(9)));
        assert_eq!(out, [0, 0, 0, 9, self.message[4] + 0x80, 0xff, 0xff, 0xff, 0xea, 0x55]);
    }

    fn compare_reply(&self) {
        self.compare(|message| read_reply(message).err());
    }
}

fn string(bytes: &[u8]) -> Vec<u8> {
    [&(bytes.len() as u32).to_be_bytes()[..], bytes].concat()
}

fn any<const N: usize>(random: &mut Random, of: [u8; N]) -> u8 {
    of[random.below(N as u64) as usize]
}

/// Well-formed text that looks random.
fn good_text(random: &mut Random) -> Vec<u8> {
    let text = random_text(random);
    text[..tushalets::well_formed_end(&text)].to_vec()
}

/// Bytes that would complete a character, or nothing.
fn behind(random: &mut Random) -> &'static [u8] {
    [&[][..], &[0xbf; 3], &[0x80, 0x61]][random.below(3) as usize]
}

#[test]
fn texts_of_requests() {
    let mut random = Random(0x0123_4567_89ab_cdef);
    for _ in 0..ROUNDS {
        let text = random_text(&mut random);
        Tried::new(any(&mut random, ONE_TEXT), &[], &text, behind(&mut random)).compare_request();
        let first = string(&good_text(&mut random));
        let two = any(&mut random, TWO_TEXTS);
        Tried::new(two, &first, &text, behind(&mut random)).compare_request();
        Tried::new(WRITE, &[], &text, &BEHIND_PATH).compare_request();
        // A bad first text is refused before the second text, or the length of the data, is looked at.
        if core::str::from_utf8(&text).is_err() {
            Tried::new(two, &[], &text, &string(&[0xff])).compare_request();
            Tried::new(WRITE, &[], &text, &[0xff]).compare_request();
        }
    }
}

#[test]
fn texts_of_replies() {
    let mut random = Random(0xfedc_ba98_7654_3210);
    for _ in 0..ROUNDS {
        let text = random_text(&mut random);
        Tried::new(GETCREDS_REPLY, &[], &text, behind(&mut random)).compare_reply();
        Tried::new(READLINK_REPLY, &RESULT, &text, behind(&mut random)).compare_reply();
        let (before, after) = (random.below(4), random.below(3));
        let count = (before + 1 + after) as u32;
        let mut names = [RESULT, count.to_be_bytes()].concat();
        names.extend((0..before).flat_map(|_| string(&good_text(&mut random))));
        let others: Vec<u8> = (0..after).flat_map(|_| string(&good_text(&mut random))).collect();
        Tried::new(READDIR_REPLY, &names, &text, &others).compare_reply();
    }
}

/// One bad byte at every place of a long path.
#[test]
fn every_place_of_a_long_path() {
    let path: Vec<u8> = "/é€𝄞".bytes().cycle().take(4_000).collect();
    for place in 0..path.len() {
        let mut text = path.clone();
        text[place] = 0xff;
        Tried::new(ONE_TEXT[0], &[], &text, &[]).compare_request();
    }
}
