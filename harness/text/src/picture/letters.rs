//! How wide words are. Which font there will be is not known, so letters are taken to be as wide as in the wide ones.

/// The width of words in letters of this size.
pub fn width(words: &str, size: f64) -> f64 {
    words.chars().map(letter).sum::<f64>() * size
}

/// The words, or as many letters of them as there is room for.
pub fn fit(words: &str, size: f64, room: f64) -> String {
    if width(words, size) <= room {
        return words.to_string();
    }
    let mut left = room - width("..", size);
    let whole = words.chars().take_while(|&one| {
        left -= letter(one) * size;
        left >= 0.0
    });
    whole.chain("..".chars()).collect()
}

/// Words in as many lines as they need.
pub fn lines(words: &str, size: f64, room: f64) -> Vec<String> {
    let mut lines: Vec<String> = Vec::new();
    for word in words.split_whitespace() {
        match lines.last_mut() {
            Some(line) if width(line, size) + width(word, size) + size <= room => {
                line.push(' ');
                line.push_str(word);
            }
            _ => lines.push(fit(word, size, room)),
        }
    }
    lines
}

/// A number with a comma before every three digits.
pub fn count(number: u64) -> String {
    let digits = number.to_string();
    let mut text = String::new();
    for (place, digit) in digits.chars().enumerate() {
        if place > 0 && (digits.len() - place) % 3 == 0 {
            text.push(',');
        }
        text.push(digit);
    }
    text
}

fn letter(letter: char) -> f64 {
    match letter {
        'i' | 'j' | 'l' | '\'' | '|' => 0.29,
        ' ' | '.' | ',' | ':' | ';' => 0.33,
        '-' | '(' | ')' | 'f' | 'r' | 't' | 'I' => 0.41,
        'm' | 'w' | 'M' | 'W' => 0.95,
        'A'..='Z' => 0.71,
        letter if letter.is_ascii() => 0.63,
        _ => 1.0,
    }
}

#[cfg(test)]
mod tests {
    use super::*;

    #[test]
    fn words_fit() {
        assert_eq!(fit("sequence", 10.0, 100.0), "sequence");
        let short = fit("sequence", 10.0, 30.0);
        assert!(
            short.ends_with("..") && width(&short, 10.0) <= 30.0,
            "{short}"
        );
        assert_eq!(fit("sequence", 10.0, 0.0), "..");
        assert_eq!(lines("one two three", 10.0, 60.0), ["one two", "three"]);
        assert!(lines(" ", 10.0, 60.0).is_empty());
    }

    #[test]
    fn counts_have_commas() {
        let counts = [0, 999, 1_000, 12_345_678].map(count);
        assert_eq!(counts, ["0", "999", "1,000", "12,345,678"]);
    }
}
