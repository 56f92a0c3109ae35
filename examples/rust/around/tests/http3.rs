//! Field sections and frames of HTTP/3: examples of the RFCs, and what is malformed.
use around::http3::{data_head, fields, headers, qpack, Frames, Piece};

fn bytes(hex: &str) -> Vec<u8> {
    let digits: Vec<u8> = hex.chars().filter_map(|it| it.to_digit(16)).map(|it| it as u8).collect();
    digits.chunks(2).map(|pair| pair[0] << 4 | pair[1]).collect()
}

/// A section with one field `:path`, whose value is this code.
fn with_path(code: &[u8]) -> Vec<u8> {
    [&[0, 0, 0x51, 0x80 | code.len() as u8], code].concat()
}

/// RFC 9204, appendix B.1.
#[test]
fn literal() {
    let section = b"\0\0\x51\x0b/index.html";
    assert_eq!(qpack::encode(&[(":path", "/index.html")]), section);
    let found = qpack::decode(section).unwrap();
    assert_eq!(found, [(b":path"[..].into(), b"/index.html"[..].into())]);
}

/// The texts of RFC 7541, appendix C.4 and C.6.
#[test]
fn huffman() {
    for (text, code) in [
        ("www.example.com", "f1e3c2e5f23a6ba0ab90f4ff"),
        ("no-cache", "a8eb10649cbf"),
        ("custom-key", "25a849e95ba97d7f"),
        ("custom-value", "25a849e95bb8e8b4bf"),
        ("302", "6402"),
        ("Mon, 21 Oct 2013 20:13:21 GMT", "d07abe941054d444a8200595040b8166e082a62d1bff"),
        ("https://www.example.com", "9d29ad171863c78f0b97c8e9ae82ae43d3"),
    ] {
        let section = with_path(&bytes(code));
        assert_eq!(qpack::decode(&section).unwrap()[0].1, text.as_bytes(), "{}", text);
    }
}

/// Eight bits of padding, zeros in it, and the code of the end.
#[test]
fn bad_huffman() {
    for code in ["6402ff", "640200", "fffffffc", "ffffffff"] {
        assert_eq!(qpack::decode(&with_path(&bytes(code))), None, "{}", code);
    }
}

/// Entries of a dynamic table (RFC 9204, appendix B.2), one beyond the static one, a text that is
/// too short, and an integer that doesn't end.
#[test]
fn bad_sections() {
    for section in
        ["03811011", "000080", "000010", "0000ff24", "0000510b2f", "0000ffffffffff", "00"]
    {
        assert_eq!(qpack::decode(&bytes(section)), None, "{}", section);
    }
    assert!(fields(&bytes("000080")).is_err());
}

/// Entries of the static table (RFC 9204, appendix A), and names that aren't there.
#[test]
fn static_table() {
    let all = [
        (":method", "GET"),
        (":status", "404"),
        (":status", "500"),
        (":status", "405"),
        ("x-y", "z"),
    ];
    let section = qpack::encode(&all);
    assert_eq!(section[..6], [0, 0, 0xd1, 0xdb, 0xff, 8]);
    let found = qpack::decode(&section).unwrap();
    let texts = |(name, value): &(&str, &str)| {
        (name.as_bytes().to_vec().into(), value.as_bytes().to_vec().into())
    };
    assert_eq!(found, all.iter().map(texts).collect::<Vec<qpack::Field<'_>>>());
}

/// A header, a frame of an unknown kind (RFC 9114, section 7.2.8), and DATA: byte by byte.
#[test]
fn frames() {
    let stream =
        [&headers(&[(":status", "200")])[..], &[0x21, 2, 9, 9], &data_head(3), b"abc"].concat();
    let (mut frames, mut header, mut data) = (Frames::default(), Vec::new(), Vec::new());
    for (at, byte) in stream.iter().enumerate() {
        frames.take(&[*byte]);
        while let Some(piece) = frames.next_piece().unwrap() {
            match piece {
                Piece::Headers(section) => header.extend(section),
                Piece::Data(more) => data.extend(more),
            }
        }
        let is_whole = [5, 9, stream.len()].contains(&(at + 1));
        assert_eq!(frames.is_whole(), is_whole, "after {} bytes", at + 1);
    }
    assert_eq!((&header[..], &data[..]), (&[0, 0, 0xd9][..], &b"abc"[..]));
}

/// Frames that may not be on a request stream, and a header that is too long.
#[test]
fn bad_frames() {
    for kind in [0x02, 0x03, 0x04, 0x05, 0x06, 0x07, 0x08, 0x09, 0x0d] {
        let mut frames = Frames::default();
        frames.take(&[kind, 0]);
        assert_eq!(
            frames.next_piece().err().map(|it| it.application_code),
            Some(0x105),
            "{}",
            kind
        );
    }
    let mut frames = Frames::default();
    frames.take(&[0x01, 0x80, 0, 0x40, 1]);
    assert_eq!(frames.next_piece().err().map(|it| it.application_code), Some(0x107));
}
