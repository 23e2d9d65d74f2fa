//! The first lines of a card, for a place that takes only so many characters.
use std::borrow::Cow;

/// A text, or where it has more characters than are wanted its first lines, as many as leave room for a last one that
/// tells how many are left out. A card has a line for each known section, and so can have 65,536 lines.
///
/// ```
/// let card = "// Shader Source Info: 2 section(s)\n//   [0] SourceNames: 1 file(s)\n//   [1] Arguments: 1 pair(s)\n";
/// assert_eq!(srci::first_lines(card, 2000), card);
/// assert_eq!(
///     srci::first_lines(card, 70),
///     "// Shader Source Info: 2 section(s)\n//   .. 2 more line(s)\n");
/// assert_eq!(srci::first_lines(card, 3), "");
/// ```
pub fn first_lines(text: &str, most: usize) -> Cow<'_, str> {
    if text.chars().count() <= most {
        return Cow::Borrowed(text);
    }
    let mut left = text.split_inclusive('\n').count();
    let (mut bytes, mut characters) = (0, 0);
    let mut fits = None;
    for line in text.split_inclusive('\n') {
        if characters + told(left).len() <= most {
            fits = Some((bytes, left));
        }
        bytes += line.len();
        characters += line.chars().count();
        left -= 1;
        if characters > most {
            break;
        }
    }
    match fits {
        Some((bytes, left)) => Cow::Owned(format!("{}{}", &text[..bytes], told(left))),
        None => Cow::Borrowed(""),
    }
}

fn told(left: usize) -> String {
    format!("//   .. {left} more line(s)\n")
}
