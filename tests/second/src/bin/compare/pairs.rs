//! Calls that are lent a pair, on whole numbers or on floats, beside the second program's answers.
use crate::part::Part;
use second::map::Answer;
use second::record::narrow;
use second::request::{bits, Request};

/// A number as calls take it and answer it.
pub trait Number: Copy {
    /// Whatever number the word stands for.
    fn of(word: u64) -> Self;
    /// Floats are compared by their bits.
    fn bits(self) -> u64;
    fn text(self) -> String;
    fn pair(answer: Answer) -> Result<[Self; 2], u8>;
}

impl Number for i32 {
    fn of(word: u64) -> i32 {
        word as i32
    }

    fn bits(self) -> u64 {
        self as u64
    }

    fn text(self) -> String {
        self.to_string()
    }

    fn pair(answer: Answer) -> Result<[i32; 2], u8> {
        answer.pair().map(|pair| pair.map(narrow))
    }
}

impl Number for f64 {
    fn of(word: u64) -> f64 {
        f64::from_bits(word)
    }

    fn bits(self) -> u64 {
        self.to_bits()
    }

    fn text(self) -> String {
        bits(self)
    }

    fn pair(answer: Answer) -> Result<[f64; 2], u8> {
        match answer {
            Answer::Floats(first, second) => Ok([first, second]),
            Answer::Refused(n) => Err(n),
            _ => panic!("an answer of floats"),
        }
    }
}

/// A kind and three numbers, the central meridian first.
type Handed<T> = (u8, [T; 3]);

/// A function of the library, and the requests that it answers.
pub struct Call<T> {
    pub library: fn(u8, [T; 3], &mut [T; 4]) -> u8,
    pub request: fn(i128, [T; 3]) -> Request,
    /// What the function is handed for a request, if it can be.
    pub handed: fn(&Request) -> Option<Handed<T>>,
}

impl<T: Number> Call<T> {
    /// Compares the number that is given and all that was lent: the pair, and a word on either side of it. Gives the pair.
    fn compare(&self, part: &mut Part, (kind, numbers): Handed<T>) -> [T; 2] {
        let before = [(); 4].map(|_| T::of(part.word()));
        let mut lent = before;
        let given = (self.library)(kind, numbers, &mut lent);
        let request = (self.request)(kind.into(), numbers);
        let (should, after) = match T::pair(request.answer()) {
            Ok([first, second]) => (0, [before[0], first, second, before[3]]),
            Err(number) => (number, before),
        };
        let same = given == should && lent.map(T::bits) == after.map(T::bits);
        let difference = || {
            let [before, lent, after] = [before, lent, after].map(text);
            format!("{request}, lent {before}: answered {given} {lent}, should be {should} {after}")
        };
        part.count(given, (!same).then(difference));
        [lent[1], lent[2]]
    }

    /// Compares every request that the function can be handed.
    pub fn compare_all(&self, part: &mut Part, requests: impl Iterator<Item = Request>) {
        for handed in requests.filter_map(|request| (self.handed)(&request)) {
            self.compare(part, handed);
        }
    }
}

/// The pair between two bars.
pub fn text<T: Number>(lent: [T; 4]) -> String {
    let [before, first, second, behind] = lent.map(T::text);
    format!("{before}|{first} {second}|{behind}")
}

/// Hands on what is answered to each accepted request, as it stands: to the one call, to the other, and so once more.
pub fn hand_on<T: Number>(
    part: &mut Part,
    [forward, inverse]: [&Call<T>; 2],
    requests: impl Iterator<Item = Request>,
) {
    let accepted = |request: &Request| !matches!(request.answer(), Answer::Refused(_));
    for request in requests.filter(accepted) {
        if let Some(position) = (forward.handed)(&request) {
            by_turns(part, [forward, inverse], position);
        } else if let Some(place) = (inverse.handed)(&request) {
            by_turns(part, [inverse, forward], place);
        }
    }
}

fn by_turns<T: Number>(part: &mut Part, calls: [&Call<T>; 2], (kind, first): Handed<T>) {
    let mut numbers = first;
    for call in [calls, calls].concat() {
        let [first, second] = call.compare(part, (kind, numbers));
        numbers = [numbers[0], first, second];
    }
}
