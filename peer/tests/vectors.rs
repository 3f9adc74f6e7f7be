//! The published AES and CMAC vectors and the settings strings with their verdicts.

use peer::aes::{Aes, Block};
use peer::bytes::{hex, unhex};
use peer::crypto::{cbc_decrypt, cbc_encrypt, Cmac};
use peer::settings::{FileNo, Settings};

const AES: &str = include_str!("vectors/aes128.txt");
const SETTINGS: &str = include_str!("vectors/settings.txt");

/// The words of each line that is no comment.
fn lines(text: &str) -> impl Iterator<Item = Vec<&str>> {
    text.lines()
        .filter(|line| !line.starts_with('#') && !line.is_empty())
        .map(|line| line.split(' ').collect())
}

fn bytes(word: &str) -> Vec<u8> {
    match word {
        "-" => Vec::new(),
        _ => unhex(word).expect("hexadecimal"),
    }
}

fn block(word: &str) -> Block {
    bytes(word).try_into().expect("a block")
}

#[test]
fn aes_vectors() {
    let mut seen = 0;
    for words in lines(AES) {
        let key = Aes::new(&block(words[2]));
        match (words[0], &words[3..]) {
            ("ECB", [plain, sealed]) => ecb(words[1], &key, &bytes(plain), &bytes(sealed)),
            ("CBC", [iv, plain, sealed]) => {
                cbc(words[1], &key, block(iv), &bytes(plain), &bytes(sealed))
            }
            ("CMAC", [text, tag]) => {
                assert_eq!(cmac(key, &bytes(text)), block(tag), "{}", words[1])
            }
            ("CMACBAD", [text, tag]) => {
                assert_ne!(cmac(key, &bytes(text)), block(tag), "{}", words[1])
            }
            _ => panic!("{}", words[0]),
        }
        seen += 1;
    }
    assert_eq!(seen, 588 + 588 + 48 + 81);
}

fn ecb(name: &str, key: &Aes, plain: &[u8], sealed: &[u8]) {
    assert_eq!(plain.len(), sealed.len());
    for (plain, sealed) in plain.chunks(16).zip(sealed.chunks(16)) {
        let (plain, sealed) = (plain.try_into().unwrap(), sealed.try_into().unwrap());
        assert_eq!(key.encrypt(&plain), sealed, "{name}");
        assert_eq!(key.decrypt(&sealed), plain, "{name}");
    }
}

fn cbc(name: &str, key: &Aes, iv: Block, plain: &[u8], sealed: &[u8]) {
    let mut text = plain.to_vec();
    cbc_encrypt(key, iv, &mut text);
    assert_eq!(text, sealed, "{name}");
    cbc_decrypt(key, iv, &mut text);
    assert_eq!(text, plain, "{name}");
}

fn cmac(key: Aes, text: &[u8]) -> Block {
    let mac = Cmac::new(key);
    let whole = mac.of(&[text]);
    let (front, back) = text.split_at(text.len() / 3);
    assert_eq!(whole, mac.of(&[front, &[], back]));
    whole
}

#[test]
fn settings_strings() {
    let mut seen = 0;
    for words in lines(SETTINGS) {
        let file = FileNo::from_number(words[0].parse().unwrap()).unwrap();
        let ours = match Settings::parse(file, &bytes(words[1])) {
            Ok(settings) => hex(&settings.string()),
            Err(status) => format!("{:04X}", status.word()),
        };
        assert_eq!(ours, words[2], "file {file:?}, {}", words[1]);
        seen += 1;
    }
    assert_eq!(seen, 1500);
}

#[test]
fn a_normal_form_is_its_own() {
    for words in lines(SETTINGS) {
        let file = FileNo::from_number(words[0].parse().unwrap()).unwrap();
        if let Ok(settings) = Settings::parse(file, &bytes(words[1])) {
            assert_eq!(Settings::parse(file, &settings.string()), Ok(settings));
        }
    }
}
