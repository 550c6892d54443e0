#!/bin/bash
# Compares an event over the lent state (monitor_event) with the same by value, in one run: prints ns and ratios. The aim is
# at most 1.2. No part of the gate: a time is no test. It needs the toolchain's rt in PATH.
set -eu
cd "$(dirname "$0")/.."
. bench/machine.sh
work=target/bench/host
rm -rf "$work"
mkdir -p "$work"
room=$(mktemp -d)
trap 'rm -rf "$room"' EXIT
copied "$room"

# the same code and proofs, and beside the functions for firmware the monitor's step by value
sed -i 's/^host_c staticlib: /host_c staticlib: events monitor /' "$room/crates.txt"
cat >>"$room/crates/host_c/src/lib.rt" <<'END'

#[repr(C)]
#[derive(Clone, Copy)]
pub struct Outcome {
    pub monitor: Monitor,
    pub reply: Reply,
}

#[unsafe(no_mangle)]
pub extern "C" fn stepped(
    m: Monitor,
    q: Request,
    payload: &[u8],
    memory: &mut [u8],
    buffer: &mut [u8],
) -> Outcome {
    let Ok(e) = events::Event::try_from(q) else {
        let reply = Reply::from(twin::NoEvent);
        return Outcome {
            monitor: m,
            reply,
        };
    };
    let r = monitor::step(e, payload, state::State::from(m), memory, buffer);
    Outcome {
        monitor: Monitor::from(r.state),
        reply: Reply::from(r.answer),
    }
}
END
"$room/host/archive.sh" >"$work/archive.log" || { cat "$work/archive.log"; exit 1; }
"$gcc" -O2 -static -Ihost bench/host.c "$room/target/host/libhost.a" -o "$work/times"
$run "$work/times"
