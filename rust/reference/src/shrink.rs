//! A text that fails, cut down to a short one that still fails.

/// Drops lines and halves numbers as long as `fails` stays true. The text given
/// must fail itself.
pub fn shrink(text: &[u8], mut fails: impl FnMut(&[u8]) -> bool) -> Vec<u8> {
    let mut text = text.to_vec();
    loop {
        let before = text.clone();
        text = drop_lines(&text, &mut fails);
        text = lower_framing(text, &mut fails);
        text = lower_numbers(text, &mut fails);
        if text == before {
            return text;
        }
    }
}

/// Drops runs of lines, long runs first.
fn drop_lines(text: &[u8], fails: &mut impl FnMut(&[u8]) -> bool) -> Vec<u8> {
    let mut lines: Vec<&[u8]> = text.split_inclusive(|&byte| byte == b'\n').collect();
    let mut run = lines.len().max(1);
    loop {
        let mut at = 0;
        while at < lines.len() {
            let behind = (at + run).min(lines.len());
            let rest = [&lines[..at], &lines[behind..]].concat();
            if fails(&rest.concat()) {
                lines = rest;
            } else {
                at = behind;
            }
        }
        if run == 1 {
            return lines.concat();
        }
        run = run.div_ceil(2);
    }
}

/// Framing 5 becomes 3 before any number is lowered: it decides how low D, which
/// stands above it, may go.
fn lower_framing(text: Vec<u8>, fails: &mut impl FnMut(&[u8]) -> bool) -> Vec<u8> {
    let mut lines: Vec<&[u8]> = text.split_inclusive(|&byte| byte == b'\n').collect();
    let Some(line) = lines.iter_mut().find(|line| **line == b"(framing 5)\n") else { return text };
    *line = b"(framing 3)\n";
    let tried = lines.concat();
    if fails(&tried) {
        tried
    } else {
        text
    }
}

/// Takes from each number all of it, or half, or a quarter and so on, down to 1.
fn lower_numbers(mut text: Vec<u8>, fails: &mut impl FnMut(&[u8]) -> bool) -> Vec<u8> {
    let mut at = 0;
    while at < text.len() {
        let digits = text[at..].iter().take_while(|byte| byte.is_ascii_digit()).count();
        let figure = std::str::from_utf8(&text[at..at + digits]).unwrap_or("");
        let Ok(mut number) = figure.parse::<u128>() else {
            at += digits.max(1);
            continue;
        };
        let (before, behind) = (text[..at].to_vec(), text[at + digits..].to_vec());
        let mut less = number;
        while less > 0 {
            let lower = number.saturating_sub(less).to_string();
            let tried = [&before, lower.as_bytes(), &behind].concat();
            if number >= less && fails(&tried) {
                number -= less;
                text = tried;
            } else {
                less /= 2;
            }
        }
        at = text.len() - behind.len();
    }
    text
}
