//! Request 5/12's words for a drill's text, each taken as it stands: trees of the grammar, viable texts, the faults of a place.
//! It knows nothing of the library, and reads a text anew for every question.

/// The most bytes of a text.
pub const MOST_BYTES: usize = 4_096;
/// The most objects that a text may stand for.
pub const MOST_OBJECTS: usize = 1_024;
/// The most brackets that may be open at once.
pub const MOST_BRACKETS: usize = 16;

/// What an input is.
#[derive(Clone, PartialEq, Eq, Debug)]
pub enum Reading {
    /// the kinds of its objects
    Good(Vec<u8>),
    Long,
    /// a refusal's number and its place
    Refused(u64, usize),
}

enum Primary {
    /// by its kind
    Letter(u8),
    Bracket(Vec<Item>),
}

struct Item {
    tildes: usize,
    primary: Primary,
    /// 1 where none is written
    count: usize,
}

// ---- Trees. Each function takes what it is named after from the front of a text, and hands on what stands behind it.
// To take as much as there is loses no tree: behind a sequence stands a closing bracket or nothing, and only a count
// begins with a digit.

fn sequence(mut text: &[u8]) -> (Vec<Item>, &[u8]) {
    let mut items = Vec::new();
    while let Some((next, behind)) = item(text) {
        items.push(next);
        text = behind;
    }
    (items, text)
}

fn item(text: &[u8]) -> Option<(Item, &[u8])> {
    let tildes = text.iter().take_while(|&&byte| byte == b'~').count();
    let (primary, behind) = primary(&text[tildes..])?;
    let (count, behind) = count(behind);
    let item = Item {
        tildes,
        primary,
        count,
    };
    Some((item, behind))
}

fn primary(text: &[u8]) -> Option<(Primary, &[u8])> {
    let (first, behind) = text.split_first()?;
    match first {
        b'd' => Some((Primary::Letter(0), behind)),
        b'k' => Some((Primary::Letter(1), behind)),
        b'n' => Some((Primary::Letter(2), behind)),
        b'(' => {
            let (items, behind) = sequence(behind);
            let behind = behind.strip_prefix(b")")?;
            (!items.is_empty()).then_some((Primary::Bracket(items), behind))
        }
        _ => None,
    }
}

fn count(text: &[u8]) -> (usize, &[u8]) {
    let value = |digit: &u8| usize::from(digit - b'0');
    match text {
        [tens @ b'1'..=b'9', ones @ b'0'..=b'9', behind @ ..] => {
            (10 * value(tens) + value(ones), behind)
        }
        [ones @ b'2'..=b'9', behind @ ..] => (value(ones), behind),
        _ => (1, text),
    }
}

/// The items of a whole text; none where it is not of the grammar.
fn tree(text: &[u8]) -> Option<Vec<Item>> {
    let (items, behind) = sequence(text);
    behind.is_empty().then_some(items)
}

// ---- what a tree stands for

/// How many objects there are, at most u64::MAX: brackets in brackets soon have more than can be listed.
fn objects(items: &[Item]) -> u64 {
    let of_item = |item: &Item| {
        let once = match &item.primary {
            Primary::Letter(_) => 1,
            Primary::Bracket(items) => objects(items),
        };
        once.saturating_mul(item.count as u64)
    };
    items.iter().map(of_item).fold(0, u64::saturating_add)
}

fn exchanged(kind: u8) -> u8 {
    match kind {
        0 => 1,
        1 => 0,
        _ => kind,
    }
}

fn item_kinds(item: &Item) -> Vec<u8> {
    let once = match &item.primary {
        Primary::Letter(kind) => vec![*kind],
        Primary::Bracket(items) => kinds(items),
    };
    let mut all = once.repeat(item.count);
    for _ in 0..item.tildes {
        all.iter_mut().for_each(|kind| *kind = exchanged(*kind));
    }
    all
}

fn kinds(items: &[Item]) -> Vec<u8> {
    items.iter().flat_map(item_kinds).collect()
}

// ---- faults

/// How many brackets the text leaves open.
pub fn open_brackets(text: &[u8]) -> usize {
    let count = |wanted: u8| text.iter().filter(|&&byte| byte == wanted).count();
    count(b'(').saturating_sub(count(b')'))
}

/// The tree of the text, then `more`, then a closing bracket for each that is open.
fn closed(text: &[u8], more: &[u8]) -> Option<Vec<Item>> {
    tree(&[text, more, &vec![b')'; open_brackets(text)]].concat())
}

/// Whether a text of the grammar begins with this one. If any does, one of these three does: behind `~` or `(` an item must
/// follow, and `d` is one; behind the 1 of a count a digit must, and 0 is one; behind all else nothing must. Then no open
/// bracket is empty, and each can be closed.
fn viable(text: &[u8]) -> bool {
    let mut endings = [&b""[..], b"d", b"0"].into_iter();
    endings.any(|more| closed(text, more).is_some())
}

/// Whether the byte is a letter or the last digit of a count: no digit stands behind it, or one stands before it.
fn adds_objects(text: &[u8], place: usize) -> bool {
    let is_digit = |place: usize| text.get(place).is_some_and(u8::is_ascii_digit);
    let is_second = place > 0 && is_digit(place - 1);
    b"dkn".contains(&text[place]) || is_digit(place) && (is_second || !is_digit(place + 1))
}

fn is_crowded(text: &[u8]) -> bool {
    closed(text, b"").is_some_and(|items| objects(&items) > MOST_OBJECTS as u64)
}

/// The refusal that the place is at fault by, of several the least; the text's length is a place too.
fn fault(text: &[u8], place: usize) -> Option<u64> {
    let before = &text[..place];
    let Some(upto) = text.get(..=place) else {
        return (viable(before) && tree(before).is_none()).then_some(12);
    };
    if !viable(upto) {
        return viable(before).then_some(12);
    }
    if adds_objects(text, place) && is_crowded(upto) {
        return Some(13);
    }
    (text[place] == b'(' && open_brackets(before) == MOST_BRACKETS).then_some(14)
}

// ---- the whole

/// An input without a line feed at its end.
pub fn text_of(input: &[u8]) -> &[u8] {
    input.strip_suffix(b"\n").unwrap_or(input)
}

/// What the input is: too long, or at fault at its first place that is, or good.
pub fn reading(input: &[u8]) -> Reading {
    let text = text_of(input);
    if text.len() > MOST_BYTES {
        return Reading::Long;
    }
    let refused = |place| fault(text, place).map(|number| Reading::Refused(number, place));
    let first = (0..=text.len()).find_map(refused);
    first.unwrap_or_else(|| {
        // and it has no more objects than can be listed
        let items = tree(text).expect("a text without a fault is whole");
        Reading::Good(kinds(&items))
    })
}
