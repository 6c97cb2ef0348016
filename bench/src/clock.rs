// Timing: several pieces of work in turn, each many times, and the second smallest sample of each.

#[repr(C)]
struct Timespec {
    seconds: i64,
    nanoseconds: i64,
}

unsafe extern "C" {
    fn clock_gettime(clock: i32, time: *mut Timespec) -> i32;
}

// The clock of the processor time of this thread: what other programs on the machine take is not counted.
const THREAD_TIME: i32 = 3;

/// The processor time that this thread has used, in nanoseconds.
fn now() -> f64 {
    let mut time = Timespec { seconds: 0, nanoseconds: 0 };
    // The call writes one time.
    let failed = unsafe { clock_gettime(THREAD_TIME, &mut time) };
    assert_eq!(failed, 0, "this system has no clock of a thread's time");
    time.seconds as f64 * 1e9 + time.nanoseconds as f64
}

/// How long is measured.
#[derive(Clone, Copy)]
pub struct Pace {
    /// How long a sample takes, at least, in nanoseconds.
    pub sample: f64,
    /// The number of samples, of which the second smallest counts.
    pub samples: usize,
}

/// A piece of work, and in how many equal parts its time is told.
pub struct Racer<'a> {
    work: Box<dyn FnMut() + 'a>,
    parts: f64,
}

impl<'a> Racer<'a> {
    pub fn new(parts: usize, work: impl FnMut() + 'a) -> Racer<'a> {
        Racer { work: Box::new(work), parts: parts as f64 }
    }

    // The time of so many repeats, in nanoseconds.
    fn time(&mut self, repeats: usize) -> f64 {
        let start = now();
        for _ in 0..repeats {
            (self.work)();
        }
        now() - start
    }

    // How often the work is to be repeated in a sample; this also warms up.
    fn repeats(&mut self, pace: Pace) -> usize {
        let mut repeats = 1;
        loop {
            let time = self.time(repeats);
            if time >= pace.sample / 8.0 {
                return ((pace.sample / time * repeats as f64).ceil() as usize).max(1);
            }
            repeats *= 4;
        }
    }
}

// What disturbs a sample makes it longer, so the small ones tell most, and the very smallest may be an accident.
fn second_smallest(mut samples: Vec<f64>) -> f64 {
    samples.sort_by(f64::total_cmp);
    samples[1]
}

// Work that takes so many nanoseconds is sampled only so many times.
const SLOW: f64 = 2e7;
const FEWEST: usize = 3;

/// The time of each piece of work, by part, in nanoseconds. The samples of all are taken in turn, so that what slows the machine down for a
/// while slows all of them.
pub fn race(racers: &mut [Racer], pace: Pace) -> Vec<f64> {
    let repeats: Vec<usize> = racers.iter_mut().map(|racer| racer.repeats(pace)).collect();
    let mut samples = vec![Vec::new(); racers.len()];
    for round in 0..pace.samples {
        for ((racer, repeats), samples) in racers.iter_mut().zip(&repeats).zip(&mut samples) {
            let slow = round >= FEWEST && samples[0] * racer.parts > SLOW;
            if !slow {
                samples.push(racer.time(*repeats) / (*repeats as f64 * racer.parts));
            }
        }
    }
    samples.into_iter().map(second_smallest).collect()
}

/// The time of one run of a piece of work, in nanoseconds.
pub fn once(work: impl FnOnce()) -> f64 {
    let start = now();
    work();
    now() - start
}
