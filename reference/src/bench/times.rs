//! Times of programs on the same work: batches in turn, and the median batch of each.

/// Seconds that have passed, whatever it counts them from.
pub type Clock = fn() -> f64;

/// Does so many calls.
pub type Program<'a> = &'a mut dyn FnMut(usize);

/// How long a batch is to take, in seconds, where its calls are not given.
const BATCH: f64 = 0.012;

/// How long all batches of one comparison are to take together.
const ALL_BATCHES: f64 = 1.0;

/// However long that is.
pub const FEWEST: usize = 5;
pub const MOST: usize = 31;

/// Microseconds for one call of each program, in batches of so many calls. Batches that are not counted go first: they
/// warm the buffers, and tell how many there is time for.
pub fn medians<const N: usize>(clock: Clock, mut programs: [Program; N], calls: Option<usize>) -> [f64; N] {
    let calls = programs.each_mut().map(|program| calls.unwrap_or_else(|| calls_of_a_batch(clock, program)));
    let mut times = [const { vec![] }; N];
    let one_of_each: f64 = programs.iter_mut().zip(calls).map(|(program, calls)| seconds(clock, program, calls)).sum();
    for _ in 0..((ALL_BATCHES / one_of_each) as usize).clamp(FEWEST, MOST) {
        for (program, (times, calls)) in programs.iter_mut().zip(times.iter_mut().zip(calls)) {
            times.push(seconds(clock, program, calls) * 1e6 / calls as f64);
        }
    }
    times.map(median)
}

fn seconds(clock: Clock, program: &mut Program, calls: usize) -> f64 {
    let start = clock();
    program(calls);
    clock() - start
}

/// Doubles the calls until their time can be measured, and then goes by it.
fn calls_of_a_batch(clock: Clock, program: &mut Program) -> usize {
    let doubled = std::iter::successors(Some(1), |calls| Some(calls * 2));
    let mut timed = doubled.map(|calls| (calls, seconds(clock, program, calls)));
    let (calls, time) = timed.find(|&(_, time)| time > BATCH / 8.0).unwrap_or((1, BATCH));
    ((calls as f64 * BATCH / time) as usize).max(1)
}

fn median(mut times: Vec<f64>) -> f64 {
    times.sort_unstable_by(f64::total_cmp);
    times[times.len() / 2]
}
