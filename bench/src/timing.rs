//! The ways to answer a case, held to one answer and timed in turn.

use crate::search::Answer;
use std::hint::black_box;
use std::rc::Rc;
use std::time::{Duration, Instant};

/// How many inputs are gone through, over and over, while time is taken. Those after them are for the comparison alone.
pub const RING: usize = 64;

/// How long a measurement is to take.
const AIM: Duration = Duration::from_millis(15);

#[derive(Clone, Copy, Debug, PartialEq, Eq)]
pub enum Side {
    Library,
    /// Of these the one with the least median counts.
    Brute,
    Plain,
}

/// A way to answer. What it tells is a power of two numbers, lent until the next answer.
pub trait Way<T> {
    fn answer(&mut self, input: &[T]) -> &[i32];
}

/// A way with its inputs. The loop over them is inside, so that the way is part of it.
trait Timed {
    fn answer(&mut self, input: usize) -> Vec<i32>;
    fn run(&mut self, start: usize, calls: usize) -> u64;
}

struct Bound<T, W> {
    inputs: Rc<Vec<Vec<T>>>,
    way: W,
}

impl<T, W: Way<T>> Timed for Bound<T, W> {
    fn answer(&mut self, input: usize) -> Vec<i32> {
        self.way.answer(&self.inputs[input]).to_vec()
    }

    fn run(&mut self, start: usize, calls: usize) -> u64 {
        let mut sum = 0;
        for k in start..start + calls {
            let told = black_box(self.way.answer(black_box(&self.inputs[k % RING])));
            sum = with_call(sum, k, told);
        }
        sum
    }
}

/// The checksum takes one number of each answer, another one each time the ring comes round, so that it costs little.
#[inline(always)]
fn with_call(sum: u64, k: usize, told: &[i32]) -> u64 {
    let entry = (k + k / RING) & (told.len() - 1);
    sum.wrapping_mul(31).wrapping_add(told[entry] as u64)
}

/// One way of a case, and what its measurements took.
pub struct Entrant {
    pub side: Side,
    pub name: &'static str,
    timed: Box<dyn Timed>,
    calls: usize,
    /// Nanoseconds a call, one number for each round.
    rounds: Vec<f64>,
}

impl Entrant {
    /// Least, median and greatest of the rounds.
    pub fn spread(&self) -> (f64, f64, f64) {
        let mut rounds = self.rounds.clone();
        rounds.sort_by(f64::total_cmp);
        let count = rounds.len();
        (rounds[0], (rounds[(count - 1) / 2] + rounds[count / 2]) / 2.0, rounds[count - 1])
    }

    pub fn median(&self) -> f64 {
        self.spread().1
    }
}

/// The inputs of a case, and the ways that are to answer them.
pub struct Ring<T> {
    inputs: Rc<Vec<Vec<T>>>,
    entrants: Vec<Entrant>,
}

impl<T: 'static> Ring<T> {
    pub fn new(inputs: Vec<Vec<T>>) -> Ring<T> {
        assert!(inputs.len() >= RING);
        Ring { inputs: Rc::new(inputs), entrants: Vec::new() }
    }

    pub fn way(&mut self, side: Side, name: &'static str, way: impl Way<T> + 'static) {
        let timed = Box::new(Bound { inputs: self.inputs.clone(), way });
        self.entrants.push(Entrant { side, name, timed, calls: 1, rounds: Vec::new() });
    }

    pub fn decoder(&mut self, side: Side, name: &'static str, decode: impl Fn(&[T]) -> Answer + 'static) {
        self.way(side, name, Decoder { decode, told: [0; 4] });
    }

    /// The case, once all ways are there. The plain way's answers are what all are held to.
    pub fn case(self, name: String, rivals: [&'static str; 2]) -> Case {
        Case { name, rivals, inputs: self.inputs.len(), entrants: self.entrants, expected: Vec::new() }
    }
}

/// A decoder as a way: it tells message, score, tied, and one number more to make four.
struct Decoder<F> {
    decode: F,
    told: [i32; 4],
}

impl<T, F: Fn(&[T]) -> Answer> Way<T> for Decoder<F> {
    #[inline]
    fn answer(&mut self, input: &[T]) -> &[i32] {
        let answer = (self.decode)(input);
        self.told = [answer.message as i32, answer.score, answer.tied as i32, 0];
        &self.told
    }
}

/// What is measured under one name, such as soft h=2 m=5.
pub struct Case {
    pub name: String,
    /// What the two ratios are told against: the quickest of the brute ways, and the plain way.
    pub rivals: [&'static str; 2],
    inputs: usize,
    pub entrants: Vec<Entrant>,
    expected: Vec<Vec<i32>>,
}

impl Case {
    /// Has every way answer every input once. An error names the first that differs from the plain way.
    pub fn compare(&mut self) -> Result<(), String> {
        let plain = self.entrants.iter_mut().find(|entrant| entrant.side == Side::Plain).expect("a plain way");
        self.expected = (0..self.inputs).map(|input| plain.timed.answer(input)).collect();
        for entrant in self.entrants.iter_mut().filter(|entrant| entrant.side != Side::Plain) {
            for (input, expected) in self.expected.iter().enumerate() {
                let told = entrant.timed.answer(input);
                if told != *expected {
                    let (case, way) = (&self.name, entrant.name);
                    return Err(format!("{case}, input {input}: {way} tells {told:?}, the plain way {expected:?}"));
                }
            }
        }
        Ok(())
    }

    /// Chooses for each way how many calls a measurement makes, one at least.
    pub fn choose_calls(&mut self) {
        for entrant in &mut self.entrants {
            loop {
                let start = Instant::now();
                black_box(entrant.timed.run(0, entrant.calls));
                let took = start.elapsed();
                if took * 4 >= AIM {
                    let calls = entrant.calls as f64 * AIM.as_secs_f64() / took.as_secs_f64();
                    entrant.calls = (calls as usize).max(1);
                    break;
                }
                entrant.calls *= 2;
            }
        }
    }

    /// One measurement of each way. An error where a checksum differs.
    pub fn round(&mut self, round: usize) -> Result<(), String> {
        for entrant in &mut self.entrants {
            let (first, calls) = (round * entrant.calls, entrant.calls);
            let start = Instant::now();
            let sum = entrant.timed.run(first, calls);
            let took = start.elapsed();
            let expected = (first..first + calls).fold(0, |sum, k| with_call(sum, k, &self.expected[k % RING]));
            if sum != expected {
                return Err(format!("{}: {} has another checksum in round {round}", self.name, entrant.name));
            }
            if took.is_zero() {
                return Err(format!("{}: {} took no time in round {round}", self.name, entrant.name));
            }
            entrant.rounds.push(took.as_secs_f64() * 1e9 / calls as f64);
        }
        Ok(())
    }

    fn of(&self, side: Side) -> impl Iterator<Item = &Entrant> {
        self.entrants.iter().filter(move |entrant| entrant.side == side)
    }

    /// The quickest way of a side.
    pub fn quickest(&self, side: Side) -> &Entrant {
        self.of(side).min_by(|a, b| a.median().total_cmp(&b.median())).expect("a way for each side")
    }
}
