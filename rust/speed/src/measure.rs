//! Times the sides of a comparison in turn, round by round, so that a busy moment of the machine falls on all of them.

use std::hint::black_box;
use std::time::{Duration, Instant};

/// How long the rounds of one row go on, in all.
const TIME_FOR_A_ROW: Duration = Duration::from_millis(400);

/// No row has fewer rounds than this.
const FEWEST_ROUNDS: usize = 60;

/// No row has more rounds than this.
const MOST_ROUNDS: usize = 20_000;

/// One side of a comparison, ready to be timed.
pub trait Side {
    /// What it is called in the table.
    fn name(&self) -> &'static str;
    /// Makes the states of a round as they were before any call. Not timed.
    fn restore(&mut self, round: usize);
    /// Makes the calls of a round.
    fn run(&mut self);
    /// What can be seen of a call on one input: its answer, and all that it leaves.
    fn shown(&mut self, input: usize) -> Vec<u32>;
}

/// A side made of three functions over inputs that every side shares, and states of its own.
pub struct Calls<'a, Input, State, Restore, Call, Show> {
    pub name: &'static str,
    pub inputs: &'a [Input],
    pub states: Vec<State>,
    pub first: usize,
    pub restore: Restore,
    pub call: Call,
    pub show: Show,
}

impl<'a, Input, State, Restore, Call, Show> Calls<'a, Input, State, Restore, Call, Show>
where
    State: 'a,
    Restore: Fn(&Input, &mut State) + 'a,
    Call: Fn(&Input, &mut State) + 'a,
    Show: Fn(&State) -> Vec<u32> + 'a,
{
    /// So many calls to a round, each on a state of its own.
    pub fn boxed(
        name: &'static str,
        inputs: &'a [Input],
        calls: usize,
        empty: impl Fn(&Input) -> State,
        restore: Restore,
        call: Call,
        show: Show,
    ) -> Box<dyn Side + 'a> {
        let states = (0..calls)
            .map(|k| empty(&inputs[k % inputs.len()]))
            .collect();
        Box::new(Calls {
            name,
            inputs,
            states,
            first: 0,
            restore,
            call,
            show,
        })
    }
}

impl<Input, State, Restore, Call, Show> Side for Calls<'_, Input, State, Restore, Call, Show>
where
    Restore: Fn(&Input, &mut State),
    Call: Fn(&Input, &mut State),
    Show: Fn(&State) -> Vec<u32>,
{
    fn name(&self) -> &'static str {
        self.name
    }

    fn restore(&mut self, round: usize) {
        self.first = round % self.inputs.len();
        let inputs = self.inputs.iter().cycle().skip(self.first);
        for (state, input) in self.states.iter_mut().zip(inputs) {
            (self.restore)(input, state);
        }
    }

    fn run(&mut self) {
        let mut input = self.first;
        for state in &mut self.states {
            (self.call)(black_box(&self.inputs[input]), black_box(state));
            input += 1;
            if input == self.inputs.len() {
                input = 0;
            }
        }
    }

    fn shown(&mut self, input: usize) -> Vec<u32> {
        let input = &self.inputs[input];
        let state = &mut self.states[0];
        (self.restore)(input, state);
        (self.call)(input, state);
        (self.show)(state)
    }
}

/// What one side took for one call, in nanoseconds.
#[derive(Clone, Copy)]
pub struct Taken {
    pub name: &'static str,
    pub best: f64,
    pub median: f64,
}

/// Where two sides do not show the same on an input, says which.
pub fn disagreement(sides: &mut [Box<dyn Side + '_>], inputs: usize) -> Option<String> {
    let (first, others) = sides.split_first_mut()?;
    for input in 0..inputs {
        let expected = first.shown(input);
        for other in others.iter_mut() {
            if other.shown(input) != expected {
                return Some(format!(
                    "{} and {} differ on input {input}",
                    first.name(),
                    other.name()
                ));
            }
        }
    }
    None
}

/// Times all sides, in turn, round by round, and gives the best and the median round of each.
pub fn times(sides: &mut [Box<dyn Side + '_>], calls: usize) -> Vec<Taken> {
    let mut rounds: Vec<Vec<f64>> = sides.iter().map(|_| Vec::new()).collect();
    let began = Instant::now();
    let mut round = 0;
    while round < FEWEST_ROUNDS || (round < MOST_ROUNDS && began.elapsed() < TIME_FOR_A_ROW) {
        for (side, taken) in sides.iter_mut().zip(&mut rounds) {
            side.restore(round);
            let start = Instant::now();
            side.run();
            taken.push(start.elapsed().as_nanos() as f64 / calls as f64);
        }
        round += 1;
    }
    sides
        .iter()
        .zip(&mut rounds)
        .map(|(side, taken)| summary(side.name(), taken))
        .collect()
}

fn summary(name: &'static str, taken: &mut [f64]) -> Taken {
    taken.sort_by(f64::total_cmp);
    Taken {
        name,
        best: taken[0],
        median: taken[taken.len() / 2],
    }
}
