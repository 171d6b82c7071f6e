//! Folded sheets: a whole sheet written on one line, and a listing written on one line.

/// The bytes that a folded line stands for, or nothing if it is misshapen.
pub fn unfold(line: &[u8]) -> Option<Vec<u8>> {
    let mut sheet = Vec::new();
    let mut left = line;
    while let Some((&first, after)) = left.split_first() {
        left = after;
        match first {
            b'/' => sheet.push(b'\n'),
            b'%' => sheet.push(hexadecimal(take(&mut left, 2)?)?),
            b'<' => {
                let length = left.iter().position(|&byte| byte == b'>')?;
                let times = decimal(take(&mut left, length)?)?;
                take(&mut left, 1)?;
                let byte = take(&mut left, 1)?[0];
                sheet.extend(std::iter::repeat(byte).take(times));
            }
            byte => sheet.push(byte),
        }
    }
    Some(sheet)
}

/// A listing on one line: each LF is written as `/`.
pub fn fold(listing: &str) -> String {
    listing.replace('\n', "/")
}

/// Takes so many bytes from the front.
fn take<'a>(left: &mut &'a [u8], count: usize) -> Option<&'a [u8]> {
    if left.len() < count {
        return None;
    }
    let (front, after) = left.split_at(count);
    *left = after;
    Some(front)
}

fn hexadecimal(digits: &[u8]) -> Option<u8> {
    u8::from_str_radix(std::str::from_utf8(digits).ok()?, 16).ok()
}

fn decimal(digits: &[u8]) -> Option<usize> {
    std::str::from_utf8(digits).ok()?.parse().ok()
}
