//! Bracket texts: known ones with their answers, random valid ones, and ways to
//! damage them.

use outside_tests::algebras;
use outside_tests::random::Rng;
use outside_tests::reference::algebra::Algebra;
use outside_tests::reference::map;
use outside_tests::reference::plain::Plain;
use outside_tests::reference::text::algebra_text;
use outside_tests::reference::Engine;

const WORKED: &str =
    "[size 4]\n[op 1 [1 0 3 2]]\n[generate [0 2]]\n[contained 0 0 0 3]\n[separate 0 2]\n[decompose]\n";
const WORKED_ANSWER: &str =
    "[generated 2 [0 1 0 1]]\n[map 0 0 2 3]\n[map 0 0 2 2]\n[factors [0 1 0 1] [0 0 2 2]]\n";

/// U of document 01, over four elements.
pub const U: &str = "[size 4]\n[op 1 [1 0 3 2]]\n";

/// The binary minimum on three elements.
const MINIMUM: &str = "[size 3]\n[op 2 [[0 0 0] [0 1 1] [0 1 2]]]\n";

/// The worked text of document 01.
pub fn worked() -> Vec<u8> {
    WORKED.as_bytes().to_vec()
}

fn repeated(line: &str, times: usize) -> String {
    line.repeat(times)
}

/// Texts that ask for quotients, with their answers.
fn quotients() -> Vec<(String, String)> {
    let mut list: Vec<(String, String)> = Vec::new();
    let mut add = |head: &str, rest: &str, output: &str| list.push((format!("{head}{rest}"), output.into()));
    add(U, "[quotient 0 1 0 1]\n", "[size 2]\n[op 1 [1 0]]\n");
    add(U, "[quotient 0 1 2 3]\n", U);
    add(U, "[quotient 0 0 0 0]\n", "[size 1]\n[op 1 [0]]\n");
    add(U, "[quotient 0 0 2 2]\n", "[size 2]\n[op 1 [0 1]]\n");
    add(U, "[quotient 0 1 0 3]\n[quotient 0 0 2 2]\n", "[refused 12]\n[size 2]\n[op 1 [0 1]]\n");
    for none in ["[quotient 0 2 2 3]", "[quotient 0 1 0]", "[quotient 0 0 0 255]", "[quotient]"] {
        add(U, &format!("{none}\n"), "[refused 8]\n");
        add(U, &format!("{none}\n[separate 0 1]\n"), "[refused 8]\n[map 0 1 0 1]\n");
    }
    add(U, "[quotient 0 1 2 3 4]\n[quotient 0 0 0 0 0]\n", "[refused 8]\n[refused 8]\n");
    add(U, "[quotient 4 1 2 3]\n[quotient 1 1 2 3]\n", "[refused 8]\n[refused 8]\n");
    for bad in [
        "[quotient 0 0 0 256]",
        "[quotient ]",
        "[quotient 0 1 0 1 ]",
        "[quotient  0 1 0 1]",
        "[quotient 0  1 0 1]",
        "[quotient [0 1 0 1]]",
        "[quotient 0 1 0 01]",
        "[quotient 0 1 0 1",
        "[quotient 0 1 0 1]]",
        "[quotient 0,1,0,1]",
        "[quotient -1]",
        "[quotient 1000]",
        "[quotient0 1 0 1]",
        "[quotients 0 1 0 1]",
        "[Quotient 0 1 0 1]",
        "[quot 0 1 0 1]",
        "[quotient 0 1 0 1] [quotient 0 1 0 1]",
        "[quotient 300 0]",
    ] {
        add(U, &format!("{bad}\n[decompose]\n"), "[refused 14]\n");
        add(U, &format!("[quotient 0 0 2 2]\n{bad}\n"), "[size 2]\n[op 1 [0 1]]\n[refused 14]\n");
    }
    add(U, "[quotient 0 1 0 1]", "[refused 14]\n");
    // The algebra stays what it was; a quotient is a request like the others.
    add(
        U,
        "[quotient 0 0 0 0]\n[quotient 0 1 0 1]\n[decompose]\n",
        "[size 1]\n[op 1 [0]]\n[size 2]\n[op 1 [1 0]]\n[factors [0 1 0 1] [0 0 2 2]]\n",
    );
    add(U, "[quotient 0 1 0 3]\n[op 0 0]\n[decompose]\n", "[refused 12]\n[refused 14]\n");
    add(U, "[quotient 0 1]\n[op 0 0]\n[decompose]\n", "[refused 8]\n[refused 14]\n");
    add("[size 1]\n", "[quotient 0]\n[op 0 0]\n", "[size 1]\n[refused 14]\n");
    add("[size 1]\n", "[quotient 0]\n[size 1]\n", "[size 1]\n[refused 14]\n");
    add("[quotient 0]\n", "", "[refused 14]\n");
    add("[size 3]\n", "[quotient 0 0 2]\n", "[size 2]\n");
    add("[size 3]\n", "[op 0 2]\n[quotient 0 0 2]\n", "[size 2]\n[op 0 1]\n");
    add("[size 3]\n", "[op 0 2]\n[op 0 1]\n[quotient 0 1 0]\n", "[size 2]\n[op 0 0]\n[op 0 1]\n");
    add(MINIMUM, "[quotient 0 1 1]\n", "[size 2]\n[op 2 [[0 0] [0 1]]]\n");
    add(MINIMUM, "[quotient 0 1 0]\n", "[refused 12]\n");
    add(
        "[size 1]\n",
        "[op 3 [[[0]]]]\n[op 2 [[0]]]\n[quotient 0]\n",
        "[size 1]\n[op 3 [[[0]]]]\n[op 2 [[0]]]\n",
    );
    let long = repeated(" 0", 300);
    add("[size 4]\n", &format!("[quotient{long}]\n[quotient 0 0 0 0]\n"), "[refused 8]\n[size 1]\n");
    list
}

/// The longest answer to one request: sixteen ternary tables over eleven elements,
/// by the identity, in a text of 65,536 bytes. Its cells are chosen so.
pub fn longest_answer() -> (Vec<u8>, Vec<u8>) {
    let n = 11;
    let mut algebra = Algebra { n, arities: vec![3; 16], cells: vec![0; 16 * n * n * n] };
    let request = format!("[quotient {}]\n", words(&map::identity(n)));
    let wide = 65_536 - request.len() - algebra_text(&algebra).len();
    algebra.cells[..wide].fill(10);
    let answer = algebra_text(&algebra);
    assert_eq!((answer.len(), answer.len() + request.len()), (65_502, 65_536));
    (format!("{answer}{request}").into_bytes(), answer.into_bytes())
}

/// Texts whose answers documents 01 and 02 and their readings give, line by line.
pub fn known() -> Vec<(Vec<u8>, Vec<u8>)> {
    let seventeen = repeated("[op 0 0]\n", 17);
    let sixteen_and = |last: &str| format!("[size 2]\n{}{last}", repeated("[op 0 0]\n", 16));
    let eight_binary = |n: usize, count: usize| {
        let row = vec!["0"; n].join(" ");
        let rows = vec![format!("[{row}]"); n].join(" ");
        format!("[size {n}]\n{}", repeated(&format!("[op 2 [{rows}]]\n"), count))
    };
    let mut list: Vec<(String, String)> = Vec::new();
    let mut add = |input: &str, output: &str| list.push((input.into(), output.into()));
    add(WORKED, WORKED_ANSWER);
    // The text as a whole.
    add("", "[refused 14]\n");
    add("\n", "[refused 14]\n");
    add("[size 4]\n", "");
    add("[size 4]", "[refused 14]\n");
    add("[size 4\n", "[refused 14]\n");
    add("[size 4]\n\n", "[refused 14]\n");
    add("[size 4]\n[op 1 [1 0 3 2]]\n", "");
    add("[size 4]\n[decompose]", "[refused 14]\n");
    add("[size 3]\n[decompose]\n", "[factors [0 1 0] [0 0 2]]\n");
    add("[size 2]\n[decompose]\n", "[refused 11 0 1]\n");
    add("[size 1]\n[decompose]\n", "[refused 11 0 0]\n");
    add("[size 4]\n[op 1 [1 2 3 0]]\n[decompose]\n", "[refused 11 0 2]\n");
    add("[size 3]\n[op 2 [[0 0 0] [0 1 1] [0 1 2]]]\n[decompose]\n", "[factors [0 1 1] [0 0 2]]\n");
    for bad in [
        "[size 4]\r\n",
        " [size 4]\n",
        "[size 4] \n",
        "[size  4]\n",
        "[ size 4]\n",
        "[size 4 ]\n",
        "[Size 4]\n",
        "[size\t4]\n",
        "[size 04]\n",
        "[size +4]\n",
        "[size 256]\n",
        "[size 4][size 4]\n",
        "[size 4] [op 0 0]\n",
        "size 4\n",
        "[size]\n",
        "[size ]\n",
        "[size 4 4]\n",
        "[size [4]]\n",
        "[]\n",
        "[\n",
        "]\n",
        "[sizes 4]\n",
        "[siz 4]\n",
        "[size 4]]\n",
        "[[size 4]]\n",
        "[size four]\n",
        "[size 4a]\n",
        "[size 65]",
        "[size 0]",
        "[op 1 [0]]\n",
        "[op 4 ",
        "[generate]\n",
        "[decompose]\n",
        "\0\n",
        "[size 4]\0\n",
        "[size 1000]\n",
        "[size 18446744073709551620]\n",
        "[size -1]\n",
        "[size 4\n]\n",
    ] {
        add(bad, "[refused 14]\n");
    }
    add("[size 0]\n", "[refused 1]\n");
    add("[size 65]\n", "[refused 1]\n");
    add("[size 255]\n", "[refused 1]\n");
    add("[size 65]\n[decompose]\n", "[refused 1]\n");
    add("[size 64]\n[separate 0 64]\n", "[refused 7]\n");
    add("[size 4]\n[size 4]\n", "[refused 14]\n");
    // Operation lines.
    add("[size 2]\n[op 4 ", "[refused 3]\n");
    add("[size 2]\n[op 4 x\n", "[refused 3]\n");
    add("[size 2]\n[op 255 \0", "[refused 3]\n");
    add("[size 2]\n[op 4]\n", "[refused 14]\n");
    add("[size 2]\n[op 4", "[refused 14]\n");
    add("[size 2]\n[op 256 0]\n", "[refused 14]\n");
    add("[size 2]\n[op 00 0]\n", "[refused 14]\n");
    add("[size 2]\n[op 04 0]\n", "[refused 14]\n");
    add("[size 2]\n[op  1 [0 1]]\n", "[refused 14]\n");
    add("[size 2]\n[op 1  [0 1]]\n", "[refused 14]\n");
    add("[size 2]\n[op\n", "[refused 14]\n");
    add("[size 2]\n[op \n", "[refused 14]\n");
    add("[size 2]\n[op 1\n", "[refused 14]\n");
    add("[size 2]\n[op 1 [0 1]]", "[refused 14]\n");
    add("[size 2]\n[op 1 [0 1]\n", "[refused 14]\n");
    add("[size 2]\n[op 1 [0 1]]]\n", "[refused 14]\n");
    add("[size 2]\n[op 1 [0]]\n", "[refused 14]\n");
    add("[size 2]\n[op 1 [0 1 0]]\n", "[refused 14]\n");
    add("[size 2]\n[op 1 0 1]\n", "[refused 14]\n");
    add("[size 2]\n[op 1 [[0] 1]]\n", "[refused 14]\n");
    add("[size 2]\n[op 1 []]\n", "[refused 14]\n");
    add("[size 2]\n[op 1 [0 1] [0 1]]\n", "[refused 14]\n");
    add("[size 2]\n[op 1 [0 2]]\n", "[refused 6]\n");
    add("[size 2]\n[op 1 [0 2]\n", "[refused 14]\n");
    add("[size 2]\n[op 1 [0 2]]", "[refused 14]\n");
    add("[size 2]\n[op 1 [0 255]]\n", "[refused 6]\n");
    add("[size 2]\n[op 1 [0 256]]\n", "[refused 14]\n");
    add("[size 2]\n[op 0 5]\n", "[refused 6]\n");
    add("[size 6]\n[op 0 5]\n[separate 0 5]\n", "[map 0 0 0 0 0 5]\n");
    add("[size 6]\n[op 0 [5]]\n", "[refused 14]\n");
    add("[size 1]\n[op 3 [[[0]]]]\n[generate]\n", "[generated 0 [0]]\n");
    add("[size 1]\n[op 3 [[0]]]\n", "[refused 14]\n");
    add("[size 2]\n[op 3 [[[0 1] [1 0]] [[1 0] [0 1]]]]\n[decompose]\n", "[refused 11 0 1]\n");
    add(&format!("[size 2]\n{seventeen}"), "[refused 2]\n");
    add(&sixteen_and("[decompose]\n"), "[refused 11 0 1]\n");
    add(&sixteen_and("[op 9 "), "[refused 2]\n");
    add(&sixteen_and("[op 9]\n"), "[refused 14]\n");
    add(&sixteen_and("[op 0"), "[refused 14]\n");
    add("[size 64]\n[op 3 ", "[refused 4]\n");
    add("[size 64]\n[op 3]\n", "[refused 14]\n");
    add("[size 33]\n[op 3 [", "[refused 4]\n");
    add("[size 32]\n[op 3 [", "[refused 14]\n");
    add(&format!("{}[op 2 [", eight_binary(63, 8)), "[refused 4]\n");
    add(&format!("{}[op 1 [", eight_binary(63, 8)), "[refused 14]\n");
    add("[size 2]\n[generate]\n[op 0 0]\n", "[generated 0 [0 1]]\n[refused 14]\n");
    add("[size 2]\n[generate]\n[op 4 ", "[generated 0 [0 1]]\n[refused 14]\n");
    add("[size 2]\n[decompose]\n[size 2]\n", "[refused 11 0 1]\n[refused 14]\n");
    // Requests.
    add("[size 4]\n[generate]\n", "[generated 0 [0 1 2 3]]\n");
    add("[size 4]\n[generate [0 1] [1 0] [2 2]]\n", "[generated 1 [0 0 2 3]]\n");
    add("[size 4]\n[generate [3 1] [0 0]]\n", "[generated 1 [0 1 2 1]]\n");
    for bad in [
        "[generate ]",
        "[generate []]",
        "[generate 0 1]",
        "[generate [0 1]",
        "[generate [0 1] ]",
        "[generate [0 1 2]]",
        "[generate [0]]",
        "[generate[0 1]]",
        "[generate [0 1][1 2]]",
        "[generate [0 1]  [1 2]]",
        "[generate [256 0]]",
        "[generate [9 0] [0]]",
        "[generate [[0 1]]]",
        "[generate [0 01]]",
        "[generated]",
        "[Generate]",
        "[generate [0,1]]",
        "[generate [0 1 ]]",
        "[generate [ 0 1]]",
        "[contained ]",
        "[contained [0 1 2 3]]",
        "[contained 0 1 2 3 ]",
        "[contained 0 1 2 256]",
        "[contained 0  1 2 3]",
        "[contains 0 1 2 3]",
        "[separate]",
        "[separate 1]",
        "[separate 1 2 3]",
        "[separate [1 2]]",
        "[separate 1 256]",
        "[separate 1 2 ]",
        "[decompose ]",
        "[decompose 1]",
        "[decompose]]",
        "[decompose] [decompose]",
        "decompose",
        "[meet]",
        "[quit]",
        "[op]",
        "[op 1]",
        "[]",
        "[[decompose]]",
        "#",
    ] {
        add(
            &format!("[size 4]\n[generate [0 1]]\n{bad}\n[decompose]\n"),
            "[generated 1 [0 0 2 3]]\n[refused 14]\n",
        );
    }
    add("[size 4]\n[generate [255 0]]\n[generate]\n", "[refused 7]\n[generated 0 [0 1 2 3]]\n");
    add("[size 4]\n[generate [4 0]]\n[generate [0 3]]\n", "[refused 7]\n[generated 1 [0 1 2 0]]\n");
    add("[size 4]\n[contained]\n[contained 0 0 0 0]\n", "[refused 8]\n[map 0 0 0 0]\n");
    add("[size 4]\n[contained 0 0 0]\n[contained 0 0 0 0 0]\n", "[refused 8]\n[refused 8]\n");
    add(
        "[size 4]\n[contained 0 2 2 3]\n[contained 0 1 2 4]\n[contained 0 255 0 0]\n",
        "[refused 8]\n[refused 8]\n[refused 8]\n",
    );
    add(
        "[size 4]\n[separate 1 1]\n[separate 5 5]\n[separate 3 0]\n",
        "[refused 10]\n[refused 7]\n[map 0 0 0 3]\n",
    );
    add("[size 1]\n[separate 0 0]\n[separate 0 1]\n[contained 0]\n", "[refused 10]\n[refused 7]\n[map 0]\n");
    let long = format!("[contained{}]\n", repeated(" 0", 260));
    add(&format!("[size 4]\n{long}[contained 0 0 0 0]\n"), "[refused 8]\n[map 0 0 0 0]\n");
    add(&format!("[size 4]\n[generate{}]\n", repeated(" [1 1]", 300)), "[generated 0 [0 1 2 3]]\n");
    add(&format!("[size 4]\n{}\n", repeated("[", 60_000)), "[refused 14]\n");
    list.extend(quotients());
    let mut known: Vec<(Vec<u8>, Vec<u8>)> =
        list.into_iter().map(|(i, o)| (i.into_bytes(), o.into_bytes())).collect();
    known.push(longest_answer());
    // Bytes from 128 on.
    known.push((b"[size 4]\n[decompos\xE9]\n".to_vec(), b"[refused 14]\n".to_vec()));
    known.push((b"[size \xB2]\n".to_vec(), b"[refused 14]\n".to_vec()));
    // The limit: 65,536 bytes are read, one more is too much, whatever the lines say.
    for length in 65_530..65_545 {
        let (text, answer) = many_lines(length);
        known.push((text, if length > 65_536 { b"[refused 14]\n".to_vec() } else { answer }));
    }
    known.extend([65_535, 65_536, 65_537].map(|length| {
        let text = of_length(length);
        let answer =
            if length > 65_536 { b"[refused 14]\n".to_vec() } else { b"[generated 1 [0 1 1 3]]\n".to_vec() };
        (text, answer)
    }));
    known
}

/// A valid text of this length: one request with many pairs.
pub fn of_length(length: usize) -> Vec<u8> {
    let head = "[size 4]\n[generate";
    let rest = length - head.len() - "]\n".len();
    // A pair takes 6 bytes; operation lines of 9 bytes fill up the remainder.
    let mut fill = 0;
    while (rest - 9 * fill) % 6 != 0 {
        fill += 1;
        if fill == 6 {
            // Numbers of one more digit cannot be had below 10: use a longer line.
            return of_length_with_longer_lines(length);
        }
    }
    let text = format!(
        "[size 4]\n{}[generate{}]\n",
        "[op 0 3]\n".repeat(fill),
        " [1 2]".repeat((rest - 9 * fill) / 6)
    );
    assert_eq!(text.len(), length);
    text.into_bytes()
}

/// A text of this length with many requests, and its answer below the limit.
fn many_lines(length: usize) -> (Vec<u8>, Vec<u8>) {
    let requests = 3000;
    let mut text = "[size 4]\n".to_string();
    if length % 2 == 0 {
        // The lengths of all other lines add up to an odd number.
        text += "[op 0 3]\n";
    }
    text += &"[separate 1 1]\n".repeat(requests);
    let rest = length - text.len() - "[contained]\n".len();
    text += &format!("[contained{}]\n", " 0".repeat(rest / 2));
    assert_eq!(text.len(), length);
    let answer = "[refused 10]\n".repeat(requests) + "[refused 8]\n";
    (text.into_bytes(), answer.into_bytes())
}

/// As `of_length`, filled up by unary operation lines of 17 bytes.
fn of_length_with_longer_lines(length: usize) -> Vec<u8> {
    for unary in 0..6 {
        for nullary in 0..6 {
            let used = "[size 4]\n[generate]\n".len() + 17 * unary + 9 * nullary;
            if (length - used) % 6 == 0 {
                let text = format!(
                    "[size 4]\n{}{}[generate{}]\n",
                    "[op 1 [0 1 2 3]]\n".repeat(unary),
                    "[op 0 3]\n".repeat(nullary),
                    " [1 2]".repeat((length - used) / 6)
                );
                assert_eq!(text.len(), length);
                return text.into_bytes();
            }
        }
    }
    unreachable!("17 and 6 have no common divisor")
}

pub fn words(bytes: &[u8]) -> String {
    let list: Vec<String> = bytes.iter().map(|b| b.to_string()).collect();
    list.join(" ")
}

/// A map as numbers: any one, or a congruence; sometimes none, or too many or too
/// few numbers, or one that is no byte.
pub fn map_words(algebra: &Algebra, congruence: bool, rng: &mut Rng) -> String {
    let n = algebra.n;
    let most = rng.within(1, n);
    let mut map = if congruence {
        let pairs: Vec<(usize, usize)> = (0..rng.below(3)).map(|_| (rng.below(n), rng.below(n))).collect();
        Plain::new(algebra).least(&pairs)
    } else {
        rng.map(n, most)
    };
    match rng.below(24) {
        0 => map.push(0),
        1 => {
            map.pop();
        }
        2 => map[n - 1] = rng.byte(),
        3 => {
            let at = rng.below(n);
            map[at] = rng.below(n) as u8;
        }
        4 => map.clear(),
        5 => return format!(" {} {}", words(&map), rng.within(256, 1000)),
        _ => {}
    }
    let space = if map.is_empty() { "" } else { " " };
    format!("{space}{}", words(&map))
}

/// One request line, mostly one that is answered.
pub fn request(algebra: &Algebra, rng: &mut Rng) -> String {
    let n = algebra.n;
    let element = |rng: &mut Rng| {
        if rng.once_in(40) {
            rng.below(256)
        } else {
            rng.below(n)
        }
    };
    match rng.below(5) {
        0 => {
            let count = if rng.once_in(20) { rng.below(200) } else { rng.below(4) };
            let pairs: String = (0..count).map(|_| format!(" [{} {}]", element(rng), element(rng))).collect();
            format!("[generate{pairs}]\n")
        }
        1 => format!("[contained{}]\n", map_words(algebra, false, rng)),
        2 => format!("[separate {} {}]\n", element(rng), element(rng)),
        3 => {
            let congruence = !rng.once_in(4);
            format!("[quotient{}]\n", map_words(algebra, congruence, rng))
        }
        _ => "[decompose]\n".to_string(),
    }
}

/// A valid text about a random algebra.
pub fn valid(limit: usize, cells: usize, rng: &mut Rng) -> Vec<u8> {
    let algebra = algebras::any(limit, cells, rng).algebra;
    let mut text = algebra_text(&algebra);
    for _ in 0..rng.below(7) {
        text += &request(&algebra, rng);
    }
    text.into_bytes()
}

/// One change somewhere in a text.
pub fn damaged(text: &[u8], rng: &mut Rng) -> Vec<u8> {
    let mut bytes = text.to_vec();
    if bytes.is_empty() {
        return vec![rng.byte()];
    }
    let at = rng.below(bytes.len());
    match rng.below(10) {
        0 => bytes[at] ^= 1 << rng.below(8),
        1 => bytes[at] = *rng.pick(b" []\n0123456789\0\r\tabcdefgopz\xFF"),
        2 => bytes.truncate(at),
        3 => bytes.insert(at, *rng.pick(b" []\n0159\0x")),
        4 => {
            bytes.remove(at);
        }
        5 => {
            // No last newline.
            bytes.pop();
        }
        6 => {
            // A line twice, or gone.
            let lines: Vec<&[u8]> = text.split_inclusive(|&b| b == 10).collect();
            let which = rng.below(lines.len());
            let times = if rng.once_in(2) { 2 } else { 0 };
            bytes = lines
                .iter()
                .enumerate()
                .flat_map(|(i, line)| line.repeat(if i == which { times } else { 1 }))
                .collect();
        }
        7 => {
            // Two lines exchanged.
            let mut lines: Vec<&[u8]> = text.split_inclusive(|&b| b == 10).collect();
            let (i, j) = (rng.below(lines.len()), rng.below(lines.len()));
            lines.swap(i, j);
            bytes = lines.concat();
        }
        8 => {
            // One number changed.
            let new = rng.below(300).to_string().into_bytes();
            if let Some(digit) = (at..bytes.len()).find(|&i| bytes[i].is_ascii_digit()) {
                bytes.splice(digit..digit + 1, new);
            }
        }
        _ => bytes[at] = rng.byte(),
    }
    bytes
}

/// A mismatch, whole, as text.
pub fn difference(input: &[u8], found: &[u8], expected: &[u8]) -> String {
    let show = |bytes: &[u8]| bytes.escape_ascii().to_string();
    format!("  input    {}\n  found    {}\n  expected {}", show(input), show(found), show(expected))
}
