//! Plans that keep the rules.

use random::Random;

use crate::tag::Name;

pub(crate) const BENCH: &str = "port\t1\tuni\t020000000001\nflow\t1\t1\tc\t20\nflow\t2\t1\tc\t30\nmp\t1\tup\t4\n";
const MPS: [&str; 3] = ["mip", "up", "down"];

/// Makes a plan's text.
type Make = fn(&mut Random) -> String;

pub(crate) const KINDS: [(Name, Make); 5] = [
    ("bench plan", |_| BENCH.to_string()),
    ("plan with MIPs", |_| dense()),
    ("full plan", |_| full()),
    ("plan of one port", |random| format!("port\t{}\tuni\t020000000001\n", 1 + random.below(8))),
    ("random plan", any),
];
/// Which of them are picked, each as often as it stands here.
const PICKED: [usize; 14] = [0, 0, 0, 1, 1, 1, 1, 1, 2, 2, 3, 4, 4, 4];

pub(crate) fn pick(random: &mut Random) -> (Name, String) {
    let (name, make) = KINDS[random.pick(&PICKED)];
    (name, make(random))
}

/// Three ports with three flows each, and MPs of all kinds.
fn dense() -> String {
    let mut text = String::new();
    for (port, (kind, set)) in (1..).zip([("uni", "c"), ("uni", "c"), ("enni", "s")]) {
        text += &port_line(port, kind);
        for (place, (set, vid)) in (0..).zip([(set, 20), (set, 30), ("u", 0)]) {
            let flow = 3 * place + port;
            text += &format!("flow\t{flow}\t{port}\t{set}\t{vid}\n");
            text += &format!("mp\t{flow}\tmip\t2\nmp\t{flow}\t{}\t4\nmp\t{flow}\tmip\t6\n", MPS[flow % 3]);
        }
    }
    text
}

/// As many ports, flows and MPs as there can be.
pub(crate) fn full() -> String {
    let mut text = String::new();
    for port in 1..=8 {
        let (kind, set) = [("uni", "c"), ("enni", "s")][port % 2];
        text += &port_line(port, kind);
        for (flow, vid) in (4 * port - 3..).zip([1, 20, 30, 4094]) {
            text += &format!("flow\t{flow}\t{port}\t{set}\t{vid}\nmp\t{flow}\t{}\t{}\n", MPS[flow % 3], flow % 8);
        }
    }
    text
}

fn any(random: &mut Random) -> String {
    let mut text = String::new();
    let mut flow = 0;
    for port in 1..=1 + random.below(4) {
        let (kind, set) = random.pick(&[("uni", "c"), ("enni", "s")]);
        text += &port_line(port, kind);
        for vid in 1..=random.below(4) {
            flow += 1;
            let (set, vid) = if vid == 1 { ("u", 0) } else { (set, 10 * vid) };
            text += &format!("flow\t{flow}\t{port}\t{set}\t{vid}\n");
            text += &mp_lines(flow, random);
        }
    }
    text
}

/// At most two.
fn mp_lines(flow: usize, random: &mut Random) -> String {
    let levels = [random.below(4), 4 + random.below(4)];
    let chosen = levels.iter().take(random.below(3));
    chosen.map(|level| format!("mp\t{flow}\t{}\t{level}\n", random.pick(&MPS))).collect()
}

fn port_line(port: usize, kind: &str) -> String {
    format!("port\t{port}\t{kind}\t02000000000{port}\n")
}
