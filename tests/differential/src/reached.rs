//! The most activations of a row in spans of every length, over many runs on one
//! setting, and how near they come to the bound that the library gives.

use crate::settings::W;
use crate::spans::of_library;
use second::{span_bound, Fault, Setting};

/// Wrong bounds of spans that are below the right ones, and that some adversary gets
/// above.
const TOO_LOW: [Fault; 13] = [
    Fault::SpanFreeIsN,
    Fault::SpanFreeIsTwoN,
    Fault::SpanMWithoutOne,
    Fault::SpanMRoundsDown,
    Fault::SpanHalfRoundsDown,
    Fault::SpanEpochIsWindow,
    Fault::SpanFirstWithoutOne,
    Fault::SpanSecondWithoutOne,
    Fault::SpanSecondByDelay,
    Fault::SpanBoundOfWindow,
    Fault::SpanAtMostLimit,
    Fault::SpanNoneInOneTick,
    Fault::SpanDelaysTaken,
];

/// What runs on a setting reached.
#[derive(Clone, Debug)]
pub struct Reached {
    setting: Setting,
    /// The longest span that is looked at.
    longest: u64,
    /// Place k has the fewest successive ticks that held k + 1 activations of a row.
    fewest: Vec<u64>,
}

/// Spans that were compared with their bounds.
#[derive(Clone, Copy, Debug, Default)]
struct Near {
    spans: u64,
    /// Spans in which the bound was reached.
    attained: u64,
    /// Spans with one activation less than the bound.
    one_less: u64,
    /// Spans longer than W in which the bound was reached.
    beyond: u64,
}

impl Near {
    fn add(&mut self, other: Near) {
        self.spans += other.spans;
        self.attained += other.attained;
        self.one_less += other.one_less;
        self.beyond += other.beyond;
    }
}

impl Reached {
    /// Nothing yet, for spans of up to 3W + 3 ticks.
    pub fn new(setting: &Setting) -> Self {
        Reached {
            setting: *setting,
            longest: 3 * setting[W] + 3,
            fewest: Vec::new(),
        }
    }

    /// Takes note of all activations of a row in one run, whose ticks rise.
    pub fn note(&mut self, ticks: &[u64]) {
        for (place, &first) in ticks.iter().enumerate() {
            for (more, &tick) in ticks[place..].iter().enumerate() {
                let span = tick - first + 1;
                if span > self.longest {
                    break;
                }
                match self.fewest.get_mut(more) {
                    Some(fewest) => *fewest = span.min(*fewest),
                    None => self.fewest.push(span),
                }
            }
        }
    }

    /// The most activations of a row in X successive ticks.
    pub fn most(&self, x: u64) -> usize {
        self.fewest.partition_point(|&span| span <= x)
    }

    /// Compares every span with the bound of the library; the first that is above it
    /// as an error.
    fn near(&self) -> Result<Near, String> {
        let mut near = Near::default();
        for x in 1..=self.longest {
            let (most, bound) = (self.most(x) as u64, of_library(&self.setting, x));
            if most > bound {
                let setting = self.setting;
                return Err(format!("{most} of {bound} in {x} ticks on {setting:?}"));
            }
            near.add(Near {
                spans: 1,
                attained: u64::from(most == bound),
                one_less: u64::from(most + 1 == bound),
                beyond: u64::from(most == bound && x > self.setting[W]),
            });
        }
        Ok(near)
    }

    /// Is some span above the bound of the second implementation with this fault?
    fn exceeds(&self, fault: Fault) -> bool {
        (1..=self.longest).any(|x| {
            let mut bound = [0];
            let number = span_bound(&self.setting, x, fault, &mut bound);
            number == 0 && self.most(x) as u64 > bound[0]
        })
    }
}

/// On none of the settings does a row get above the bound of a span, and on some it
/// reaches it. Prints how near the rows came.
pub fn spans_hold(name: &str, all: &[Reached]) -> bool {
    let mut sum = Near::default();
    for reached in all {
        match reached.near() {
            Ok(near) => sum.add(near),
            Err(above) => {
                println!("  ABOVE THE BOUND OF A SPAN: {above}");
                return false;
            }
        }
    }
    let Near {
        spans,
        attained,
        one_less,
        beyond,
    } = sum;
    println!(
        "  {name}: {spans} spans, the bound attained in {attained}, {beyond} of them above W,"
    );
    println!("  and one activation less in {one_less}");
    attained.min(beyond) > 0
}

/// On some setting a row gets above each bound that is too low.
pub fn too_low_seen(all: &[Reached]) -> bool {
    let exceeded = |fault: &&Fault| all.iter().any(|reached| reached.exceeds(**fault));
    let (seen, missed): (Vec<&Fault>, Vec<&Fault>) = TOO_LOW.iter().partition(exceeded);
    let many = TOO_LOW.len();
    println!(
        "  {} of {many} bounds of spans that are too low seen",
        seen.len()
    );
    if !missed.is_empty() {
        println!("  NOT SEEN: {missed:?}");
    }
    missed.is_empty()
}
