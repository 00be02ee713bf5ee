//! The period report of a call: for each period the pair and half of the unit
//! that takes its mark, its first sample and its size.

/// The bytes of a line: four numbers of 4 bytes.
pub const LINE_BYTES: usize = 16;

/// The names of a line's numbers.
const FIELDS: [&str; 4] = ["pair", "half", "first", "size"];

/// Pair, from 1; half, 1 or 2; first sample, from 0; size.
pub type Line = [usize; 4];

/// The report of a call by the unit that takes each mark (by its place in the
/// list of units) and the mark's size. Each pair has two units, one after the
/// other.
pub fn lines(takers: &[usize], sizes: &[usize]) -> Vec<Line> {
    let mut first = 0;
    let mut line = |(taker, size): (&usize, &usize)| {
        let line = [taker / 2 + 1, taker % 2 + 1, first, *size];
        first += size;
        line
    };
    takers.iter().zip(sizes).map(&mut line).collect()
}

/// The lines as `diphone_report` writes them.
pub fn bytes(lines: &[Line]) -> Vec<u8> {
    let word = |number: &usize| u32::try_from(*number).expect("at most 16,777,215");
    let numbers = lines.iter().flatten();
    numbers
        .flat_map(|number| word(number).to_le_bytes())
        .collect()
}

/// The lines at the front of a buffer.
pub fn read(bytes: &[u8], count: usize) -> Vec<Line> {
    let number = |line: &[u8], i: usize| {
        let word = line[4 * i..4 * i + 4].try_into().expect("4 bytes");
        u32::from_le_bytes(word) as usize
    };
    let lines = bytes.chunks_exact(LINE_BYTES).take(count);
    lines
        .map(|line| [0, 1, 2, 3].map(|i| number(line, i)))
        .collect()
}

/// The first number in which found lines are not as expected.
pub fn difference(expected: &[Line], found: &[Line]) -> Option<String> {
    if expected.len() != found.len() {
        return Some(format!("{} lines, found {}", expected.len(), found.len()));
    }
    let pairs = (1..).zip(expected.iter().zip(found));
    pairs.into_iter().find_map(|(number, (line, other))| {
        let i = (0..4).find(|i| line[*i] != other[*i])?;
        let (name, expected, found) = (FIELDS[i], line[i], other[i]);
        Some(format!("line {number}: {name} {expected}, found {found}"))
    })
}

/// What does not add up in the lines of a call of so many samples: each first
/// is the sum of the sizes before it, and all sizes are the samples.
pub fn wrong_sum(samples: usize, found: &[Line]) -> Option<String> {
    let mut sum = 0;
    for (number, [_, _, first, size]) in (1..).zip(found) {
        if *first != sum {
            return Some(format!("line {number}: first {first} after {sum} samples"));
        }
        sum += size;
    }
    (sum != samples).then(|| format!("sizes add up to {sum}, not to {samples} samples"))
}

/// The first line whose pair falls, or whose half falls within a pair.
pub fn fall(found: &[Line]) -> Option<String> {
    let unit = |line: &Line| [line[0], line[1]];
    let falls = |lines: &[Line]| unit(&lines[1]) < unit(&lines[0]);
    let before = found.windows(2).position(falls)?;
    let [one, other] = [before, before + 1].map(|i| unit(&found[i]));
    Some(format!(
        "line {}: pair and half {other:?} after {one:?}",
        before + 2
    ))
}
