//! The benchmark: Rattle's time over the peer's for each call, both on the same inputs in the same run; and Rattle's time in halls of which
//! half is fitted over its time in full ones.

use std::hint::black_box;
use std::time::{Duration, Instant};

use peer::random::Random;
use peer::refusal;

use super::call::Call;
use super::calls::{Journey, Step, CALLS};
use super::cases::{halves_by_b_and_share, Case};
use super::counts::full;
use super::packets::{sound_far, sound_near, Far, Near};
use super::ratios::{Form, Measure};

/// The rounds of a case, a ratio each; an odd number, so that one of them is the median.
const ROUNDS: usize = 15;
/// The bursts of a round, in which one side is timed and then the other; the shortest of each side counts, as it was disturbed least.
const BURSTS: u32 = 20;
/// The bursts of a round where one takes long.
const FEW_BURSTS: u32 = 3;
/// The time that a burst takes at least on the peer's side, well below what a process gets at a time on a busy machine.
const BURST: Duration = Duration::from_micros(100);
/// The time above which a burst takes long.
const LONG_BURST: Duration = Duration::from_millis(2);

/// What is measured.
#[derive(Debug, Clone, Copy, PartialEq, Eq)]
pub enum Extent {
    /// Every call against the peer, and halves of halls against full ones.
    All,
    /// Halves of halls against full ones alone.
    Halves,
}

/// Measures every call, or halves alone, and prints the ratios.
pub fn run(seed: u64, form: Form, extent: Extent) {
    println!("seed {seed}");
    if extent == Extent::All {
        measure_calls(seed, form);
        println!();
    }
    measure_halves(seed, form);
}

/// Measures every call against the peer and prints its ratios.
fn measure_calls(seed: u64, form: Form) {
    println!("Rattle's time over the peer's, {ROUNDS} rounds: below 1 Rattle is the faster");
    let mut above = String::new();
    for call in CALLS {
        let measures = (call.measure)(seed);
        if measures.is_empty() {
            continue;
        }
        let head = form.head(&measures);
        if head != above {
            println!("\n{head}");
            above = head;
        }
        for line in form.lines(call.name, &measures) {
            println!("{line}");
        }
    }
}

/// Measures Rattle's steps and journeys between fitted servers of halls of which half is fitted against the same ones in full halls, and
/// prints the ratios.
fn measure_halves(seed: u64, form: Form) {
    println!("Rattle's time in a hall of which half is fitted over its time in a full one, same servers, packets and codes, {ROUNDS} rounds");
    let steps = halves::<Step>(seed, halves_by_b_and_share(sound_near), |at| Near {
        hall: full(at.hall),
        ..at.clone()
    });
    let journeys = halves::<Journey>(seed, halves_by_b_and_share(sound_far), |at| Far {
        hall: full(at.hall),
        ..at.clone()
    });
    println!("\n{}", form.head(&steps));
    for (name, measures) in [(Step::NAME, steps), (Journey::NAME, journeys)] {
        for line in form.lines(name, &measures) {
            println!("{line}");
        }
    }
}

/// Measures the cases of a call against what fills the halls of their inputs.
fn halves<C: Call>(
    seed: u64,
    cases: Vec<Case<C::Input>>,
    filled: impl Fn(&C::Input) -> C::Input,
) -> Vec<Measure> {
    let mut random = Random::new(seed);
    let mut rooms = C::ample_rooms();
    let mut measure = |case: Case<C::Input>| {
        let part: Vec<C::Input> = (0..C::MEASURED).map(|_| (case.draw)(&mut random)).collect();
        let whole: Vec<C::Input> = part.iter().map(&filled).collect();
        let pace = pace::<C>(&part, &mut rooms);
        let mut ratios: Vec<f64> = (0..ROUNDS)
            .map(|_| half_ratio::<C>(&part, &whole, &mut rooms, pace))
            .collect();
        ratios.sort_by(f64::total_cmp);
        Measure {
            size: case.size,
            kind: case.kind,
            ratios,
        }
    };
    cases.into_iter().map(&mut measure).collect()
}

/// The ratio of one round: the least time of Rattle's side for the one inputs over that for the others.
fn half_ratio<C: Call>(
    part: &[C::Input],
    whole: &[C::Input],
    rooms: &mut C::Rooms,
    pace: Pace,
) -> f64 {
    let (mut halves, mut all) = (Duration::MAX, Duration::MAX);
    for _ in 0..pace.bursts {
        halves = halves.min(rattle_time::<C>(part, rooms, pace.passes));
        all = all.min(rattle_time::<C>(whole, rooms, pace.passes));
    }
    halves.as_secs_f64() / all.as_secs_f64()
}

/// Measures the cases of one call.
pub fn measure<C: Call>(seed: u64) -> Vec<Measure> {
    let mut random = Random::new(seed);
    let cases = C::cases().into_iter();
    cases
        .map(|case| measure_case::<C>(case, &mut random))
        .collect()
}

/// Measures one case; its inputs and its rooms are there before a clock runs.
fn measure_case<C: Call>(case: Case<C::Input>, random: &mut Random) -> Measure {
    let inputs: Vec<C::Input> = (0..C::MEASURED).map(|_| (case.draw)(random)).collect();
    let mut rooms = C::ample_rooms();
    let sound = |input| C::rattle(input, &mut rooms) == refusal::NONE;
    assert!(
        inputs.iter().all(sound),
        "{}, {:?} {}: an input is refused",
        C::NAME,
        case.size,
        case.kind
    );
    let pace = pace::<C>(&inputs, &mut rooms);
    let round = |_| ratio::<C>(&inputs, &mut rooms, pace);
    let mut ratios: Vec<f64> = (0..ROUNDS).map(round).collect();
    ratios.sort_by(f64::total_cmp);
    Measure {
        size: case.size,
        kind: case.kind,
        ratios,
    }
}

/// How a case is measured: the passes over the inputs that fill a burst, and the bursts of a round.
#[derive(Clone, Copy)]
struct Pace {
    passes: u32,
    bursts: u32,
}

/// The pace at which the peer's side fills a burst.
fn pace<C: Call>(inputs: &[C::Input], rooms: &mut C::Rooms) -> Pace {
    let mut passes = 1;
    let mut burst = peer_time::<C>(inputs, rooms, passes);
    while burst < BURST {
        passes *= 2;
        burst = peer_time::<C>(inputs, rooms, passes);
    }
    let bursts = if burst > LONG_BURST {
        FEW_BURSTS
    } else {
        BURSTS
    };
    Pace { passes, bursts }
}

/// The ratio of one round.
fn ratio<C: Call>(inputs: &[C::Input], rooms: &mut C::Rooms, pace: Pace) -> f64 {
    let (mut rattle, mut peer) = (Duration::MAX, Duration::MAX);
    for _ in 0..pace.bursts {
        rattle = rattle.min(rattle_time::<C>(inputs, rooms, pace.passes));
        peer = peer.min(peer_time::<C>(inputs, rooms, pace.passes));
    }
    rattle.as_secs_f64() / peer.as_secs_f64()
}

/// The time of Rattle's side for so many passes over the inputs.
#[inline(never)]
fn rattle_time<C: Call>(inputs: &[C::Input], rooms: &mut C::Rooms, passes: u32) -> Duration {
    let start = Instant::now();
    for _ in 0..passes {
        for input in inputs {
            black_box(C::rattle(black_box(input), rooms));
        }
    }
    start.elapsed()
}

/// The time of the peer's side for so many passes over the inputs.
#[inline(never)]
fn peer_time<C: Call>(inputs: &[C::Input], rooms: &mut C::Rooms, passes: u32) -> Duration {
    let start = Instant::now();
    for _ in 0..passes {
        for input in inputs {
            black_box(called_peer::<C>(black_box(input), rooms));
        }
    }
    start.elapsed()
}

/// The peer's side behind a true call, as Rattle's side is behind that of its library.
#[inline(never)]
fn called_peer<C: Call>(input: &C::Input, rooms: &mut C::Rooms) -> u32 {
    C::peer(input, rooms)
}
