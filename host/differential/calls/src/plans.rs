//! Plans that keep the rules, and their texts.

use image::{Flow, Mp, Port, PortKind, SetKind, State};
use images::samples;
use images::states::random_state;
use random::Random;

/// A state whose plan is wanted; the rest of it does not matter.
pub(crate) fn good(random: &mut Random) -> State {
    match random.below(8) {
        0 => samples::full(),
        1 => samples::mips(),
        2..=4 => dense(samples::bench()),
        _ => random_state(random),
    }
}

/// Three ports with the same sets, each with MPs that face either way.
fn dense(mut state: State) -> State {
    let kinds = [(PortKind::Uni, SetKind::C), (PortKind::Uni, SetKind::C), (PortKind::Enni, SetKind::S)];
    let first = state.ports[0];
    state.ports.clear();
    state.flows.clear();
    for (number, (port_kind, set_kind)) in (1..).zip(kinds) {
        let mut address = first.address;
        address.0[5] = number;
        state.ports.push(Port { number, kind: port_kind, address });
        for (place, (kind, vid)) in (0..).zip([(set_kind, 20), (set_kind, 30), (SetKind::U, 0)]) {
            let mut mps = [None; 8];
            mps[4] = Some([Mp::Mip, Mp::Up, Mp::Down][usize::from((number + place) % 3)]);
            mps[2] = Some(Mp::Mip);
            mps[6] = Some([Mp::Down, Mp::Up, Mp::Mip][usize::from(place)]);
            state.flows.push(Flow { number: 3 * place + number, port: number, kind, vid, mps });
        }
    }
    state
}

/// The plan's lines in an order in which names come before use.
pub(crate) fn lines(state: &State, random: &mut Random) -> Vec<Vec<u8>> {
    let mut lines: Vec<(usize, String)> = Vec::new();
    for port in &state.ports {
        let own = random.below(100);
        lines.push((own, port_line(port)));
        for flow in state.flows.iter().filter(|flow| flow.port == port.number) {
            let own = own + 1 + random.below(100);
            lines.push((own, flow_line(flow)));
            for level in (0..8).filter(|&level| flow.mps[level].is_some()) {
                lines.push((own + 1 + random.below(100), mp_line(flow, level)));
            }
        }
    }
    lines.sort();
    lines.into_iter().map(|(_, line)| line.into_bytes()).collect()
}

fn port_line(port: &Port) -> String {
    let kind = match port.kind {
        PortKind::Uni => "uni",
        PortKind::Enni => "enni",
    };
    format!("port\t{}\t{kind}\t{:012x}\n", port.number, port.address.number())
}

fn flow_line(flow: &Flow) -> String {
    let kind = match flow.kind {
        SetKind::U => "u",
        SetKind::C => "c",
        SetKind::S => "s",
    };
    format!("flow\t{}\t{}\t{kind}\t{}\n", flow.number, flow.port, flow.vid)
}

fn mp_line(flow: &Flow, level: usize) -> String {
    let kind = match flow.mps[level] {
        Some(Mp::Down) => "down",
        Some(Mp::Mip) => "mip",
        _ => "up",
    };
    format!("mp\t{}\t{kind}\t{level}\n", flow.number)
}
