//! Texts in quotes, as the rows have them: pieces `"..."`, each with `* N` after it where it
//! is there N times.

/// Returns the bytes of the pieces of a line.
pub fn texts_of(line: &str) -> Vec<u8> {
    let mut whole = Vec::new();
    let mut left = line.trim();
    while let Some(inside) = left.strip_prefix('"') {
        let (piece, after) = piece_of(inside);
        left = after.trim_start();
        let mut times = 1;
        if let Some(counted) = left.strip_prefix('*') {
            let counted = counted.trim_start();
            let end = counted
                .find(|c: char| !c.is_ascii_digit())
                .unwrap_or(counted.len());
            times = counted[..end].parse().expect("a count");
            left = counted[end..].trim_start();
        }
        whole.extend(piece.repeat(times));
    }
    assert!(left.is_empty(), "after a text stands {left}");
    whole
}

/// Returns the bytes up to the closing quote, and what is after it.
fn piece_of(text: &str) -> (Vec<u8>, &str) {
    let mut piece = Vec::new();
    let mut left = text;
    loop {
        let end = left.find(['"', '\\']).expect("a text ends");
        piece.extend_from_slice(&left.as_bytes()[..end]);
        if left[end..].starts_with('"') {
            return (piece, &left[end + 1..]);
        }
        left = escaped(&left[end + 1..], &mut piece);
    }
}

/// Puts what is written after a `\`, and returns what is after that.
fn escaped<'t>(text: &'t str, piece: &mut Vec<u8>) -> &'t str {
    let rest = &text[1..];
    match &text[..1] {
        "n" => piece.push(b'\n'),
        "r" => piece.push(b'\r'),
        "t" => piece.push(b'\t'),
        "x" => {
            piece.push(u8::from_str_radix(&rest[..2], 16).expect("a byte"));
            return &rest[2..];
        }
        "u" => {
            let (number, after) = rest[1..].split_once('}').expect("a character");
            let number = u32::from_str_radix(number, 16).expect("a number");
            let character = char::from_u32(number).expect("a character");
            piece.extend_from_slice(character.to_string().as_bytes());
            return after;
        }
        other => piece.extend_from_slice(other.as_bytes()),
    }
    rest
}
