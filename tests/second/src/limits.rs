//! The two widths of the throttle: filter counters of 16 bits, or of 32 for longer
//! histories and greater thresholds. One set of rules serves both. They differ in
//! what a setting may have at most and in the cells that hold the counters, which
//! are plain numbers here.

use crate::fault::Fault;
use crate::model::Kind;
use crate::setting::Config;

/// What a setting may have at most.
#[derive(Clone, Copy, Debug, PartialEq, Eq)]
pub struct Limits {
    /// Greatest blacklisting threshold N.
    pub threshold: u64,
    /// Most history places H.
    pub history: u64,
}

/// Of the old width, whose counters have 16 bits. The change-over and the log
/// checker keep these too.
pub const OLD: Limits = Limits {
    threshold: 32_768,
    history: 4_096,
};

/// Of the new width, whose counters have 32 bits.
pub const NEW: Limits = Limits {
    threshold: 1 << 20,
    history: 32_768,
};

/// Is it the new width?
pub fn is_wide(config: &Config) -> bool {
    config.limits == NEW
}

/// The limits of a call: those of its width. Only a fault takes others.
pub fn of_call(config: &Config, kind: Kind) -> Limits {
    match kind {
        Kind::Plan => of_plan(config),
        Kind::ChangeOver => of_change_over(config),
        _ if is_wide(config) => of_wide_call(config, kind),
        _ => of_old_call(config, kind),
    }
}

/// The same with another greatest threshold, and with other most places.
fn with_threshold(limits: Limits, threshold: u64) -> Limits {
    Limits {
        threshold,
        ..limits
    }
}

fn with_history(limits: Limits, history: u64) -> Limits {
    Limits { history, ..limits }
}

/// Of a call of the new width.
fn of_wide_call(config: &Config, kind: Kind) -> Limits {
    let limits = config.limits;
    match (config.fault, kind) {
        (Fault::WideOldThreshold, _)
        | (Fault::WideSetupOldThreshold, Kind::Setup)
        | (Fault::WideRequestOldThreshold, Kind::Request)
        | (Fault::WideDoneOldThreshold, Kind::Done)
        | (Fault::WideIndexOldThreshold, Kind::Index) => with_threshold(limits, OLD.threshold),
        (Fault::WideOldHistory, _)
        | (Fault::WideSetupOldHistory, Kind::Setup)
        | (Fault::WideRequestOldHistory, Kind::Request)
        | (Fault::WideDoneOldHistory, Kind::Done)
        | (Fault::WideIndexOldHistory, Kind::Index) => with_history(limits, OLD.history),
        (Fault::WideThresholdExcluded, _) => with_threshold(limits, NEW.threshold - 1),
        (Fault::WideThresholdOneMore, _) => with_threshold(limits, NEW.threshold + 1),
        (Fault::WideHistoryExcluded, _) => with_history(limits, NEW.history - 1),
        (Fault::WideHistoryOneMore, _) => with_history(limits, NEW.history + 4),
        _ => limits,
    }
}

/// Of a call of the old width.
fn of_old_call(config: &Config, kind: Kind) -> Limits {
    let limits = config.limits;
    match config.fault {
        Fault::OldNewThreshold => with_threshold(limits, NEW.threshold),
        Fault::OldNewHistory => with_history(limits, NEW.history),
        Fault::OldNewThresholdAfterSetup if kind != Kind::Setup => {
            with_threshold(limits, NEW.threshold)
        }
        Fault::OldNewHistoryAfterSetup if kind != Kind::Setup => with_history(limits, NEW.history),
        _ => limits,
    }
}

/// Of the change-over: those of the old width.
fn of_change_over(config: &Config) -> Limits {
    match config.fault {
        Fault::ChangeNewThreshold => with_threshold(OLD, NEW.threshold),
        Fault::ChangeNewHistory => with_history(OLD, NEW.history),
        Fault::ChangeThresholdExcluded => with_threshold(OLD, OLD.threshold - 1),
        Fault::ChangeHistoryExcluded => with_history(OLD, OLD.history - 1),
        _ => OLD,
    }
}

/// Of the planner for a width.
fn of_plan(config: &Config) -> Limits {
    let (limits, wide) = (config.limits, is_wide(config));
    match config.fault {
        Fault::PlanOldNewThreshold if !wide => with_threshold(limits, NEW.threshold),
        Fault::PlanOldNewHistory if !wide => with_history(limits, NEW.history),
        Fault::PlanWideOldThreshold if wide => with_threshold(limits, OLD.threshold),
        Fault::PlanWideOldHistory if wide => with_history(limits, OLD.history),
        Fault::PlanWideThresholdExcluded if wide => with_threshold(limits, NEW.threshold - 1),
        Fault::PlanWideThresholdOneMore if wide => with_threshold(limits, NEW.threshold + 1),
        Fault::PlanWideHistoryExcluded if wide => with_history(limits, NEW.history - 1),
        Fault::PlanWideHistoryOneMore if wide => with_history(limits, NEW.history + 4),
        _ => limits,
    }
}

/// Of the log checker: those of the old width.
pub fn of_checker(fault: Fault) -> Limits {
    match fault {
        Fault::LogNewThreshold => with_threshold(OLD, NEW.threshold),
        Fault::LogNewHistory => with_history(OLD, NEW.history),
        Fault::LogNewLimits => NEW,
        _ => OLD,
    }
}

/// Of the bound of a span: those of the new width.
pub fn of_span(fault: Fault) -> Limits {
    match fault {
        Fault::SpanOldThreshold => with_threshold(NEW, OLD.threshold),
        Fault::SpanOldHistory => with_history(NEW, OLD.history),
        Fault::SpanThresholdExcluded => with_threshold(NEW, NEW.threshold - 1),
        Fault::SpanThresholdOneMore => with_threshold(NEW, NEW.threshold + 1),
        Fault::SpanHistoryExcluded => with_history(NEW, NEW.history - 1),
        Fault::SpanHistoryOneMore => with_history(NEW, NEW.history + 4),
        _ => NEW,
    }
}

/// What a wrong behaviour of one width alone is at a width.
pub fn at_width(fault: Fault, wide: bool) -> Fault {
    match (fault, wide) {
        (Fault::OldRoundsDown, false) | (Fault::WideRoundsDown, true) => Fault::QuotaRoundsDown,
        (Fault::OldInFlightOfBank, false) | (Fault::WideInFlightOfBank, true) => {
            Fault::InFlightOfBank
        }
        (Fault::OldLeftBeforeOpening, false) | (Fault::WideLeftBeforeOpening, true) => {
            Fault::LeftBeforeOpening
        }
        (Fault::OldAddsTwice, false) | (Fault::WideAddsTwice, true) => Fault::AddsTwiceToShared,
        _ => fault,
    }
}
