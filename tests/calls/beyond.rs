//! Calls at settings just beyond their largest; beyond the largest L they are in wide_ends.rs.
use crate::arguments::{arguments, fresh_world, start_args};
use crate::items::{calls_of_ends, code};
use crate::model::{least_stream, Settings};
use crate::random::Random;
use crate::sink::Sink;
use crate::states::{any_primary, any_standby};

pub fn run(r: &Random, sink: &mut Sink) {
    settings().into_iter().for_each(|settings| every_call(r, sink, settings));
}

/// Settings with one of them just out of its range.
fn settings() -> Vec<Settings> {
    let s = Settings { u: 64, m: 70, d: 2, b: 1, s: 2, q: 100, l: least_stream(64, 70, 1), t: 2 };
    vec![
        Settings { m: 65_537, l: least_stream(64, 65_537, 1), ..s },
        Settings { d: 4_097, ..s },
        Settings { l: s.l - 1, ..s },
        Settings { u: 4_160, l: least_stream(4_160, 70, 1), ..s },
        Settings { u: 4_095, l: least_stream(4_095, 70, 1), ..s },
        Settings { b: 65, s: 65, l: least_stream(64, 70, 65), ..s },
        Settings { s: 65, ..s },
        Settings { q: 32_769, ..s },
    ]
}

/// Every call of both ends, and start, at these settings with every lent length exact, so that no length is a reason.
fn every_call(r: &Random, sink: &mut Sink, settings: Settings) {
    let mut w = fresh_world(r, &settings);
    for which in [code::START].into_iter().chain(calls_of_ends()) {
        (w.primary, w.standby) = (any_primary(r, &settings), any_standby(r, &settings, which));
        let mut a = if which == code::START { start_args(r, settings) } else { arguments(r, which, &w, 0) };
        sink.call(which, &mut w, &mut a);
    }
}
