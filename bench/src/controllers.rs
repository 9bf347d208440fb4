//! The kernels that the lists set up. All components are Active at the end, one of them retired; of two the last never began.
use crate::log::{self, Port};
use crate::script::Script;

/// A kernel, and what the measured commands are told of it.
pub struct Controller {
    pub name: String,
    pub setup: Script,
    /// How many components are started.
    pub components: u8,
    /// A component that is retired.
    pub retired: u8,
    /// A port that identity 0 provides and a live link relies on.
    pub port: Port,
    /// The component that stops and starts again.
    pub cycled: u8,
    /// How often, before the links are compacted.
    pub cycles: usize,
    /// What makes dead links after a compaction, as many as there were: a component and its cycles.
    pub refill: (u8, usize),
}

/// An identity that was never issued.
pub const STALE: u8 = 200;

/// The ports of the controllers that are not made to be hard.
fn port(i: usize) -> Port {
    Port { key: 1 + i as u64, realm: i as u64 % 4 }
}

fn ports(range: std::ops::Range<usize>) -> Vec<Port> {
    range.map(port).collect()
}

/// 8 components, 7 provisions, 10 dependencies: 17 declarations, 10 live links and 4 dead ones.
pub fn typical() -> Controller {
    let needs: [&[usize]; 8] = [&[], &[0], &[0], &[1, 2], &[0], &[3], &[3, 4], &[5, 6]];
    let mut setup = Script::default();
    for (id, needed) in needs.iter().enumerate() {
        let dependencies: Vec<Port> = needed.iter().map(|&i| port(i)).collect();
        let provisions = if id < 7 { ports(id..id + 1) } else { Vec::new() };
        setup.insert(&dependencies, &provisions);
    }
    finish("typical".into(), setup, 8, Roles { retired: 6, cycled: 7, cycles: 2, refill: (7, 2) })
}

/// n components (8, 16, 32 or 64), n provisions and 3n dependencies: 4n declarations, 3n live links and 4n dead ones.
/// Identity 0 provides half the ports. The last component has two dependencies, the one before it n/2.
pub fn scaled(n: usize) -> Controller {
    let name = if n == 64 { "full".into() } else { format!("{n} components") };
    let (setup, roles) = layered(n, 0);
    finish(name, setup, n, roles)
}

/// The full one with its last component not begun, and so many declarations fewer.
pub fn pending(free: usize) -> Controller {
    let (setup, roles) = layered(64, free);
    finish(format!("full less {free}, the last not begun"), setup, 63, roles)
}

/// Two ports that nobody declares.
pub const NEW: [Port; 2] = [Port { key: 1000, realm: 0 }, Port { key: 1001, realm: 0 }];

/// The components of a scaled controller, inserted; `free` dependencies of those that share the rest left out.
fn layered(n: usize, free: usize) -> (Script, Roles) {
    let (filler, cycled) = (n - 2, n - 1);
    // the other components share the rest of the dependencies
    let (shared, sharers) = (3 * n - n / 2 - 2 - free, n - 3);
    let mut setup = Script::default();
    setup.insert(&[], &ports(0..n / 2));
    for id in 1..n {
        let wanted = match id {
            _ if id == filler => n / 2,
            _ if id == cycled => 2,
            _ => shared / sharers + usize::from(id <= shared % sharers),
        };
        let offered = if id <= n / 2 { ports(n / 2 + id - 1..n / 2 + id) } else { Vec::new() };
        let below = n / 2 + (id - 1).min(n / 2);
        let dependencies: Vec<Port> = (0..wanted).map(|k| port((5 * id + k) % below)).collect();
        setup.insert(&dependencies, &offered);
    }
    let roles = Roles { retired: (n - 3) as u8, cycled: cycled as u8, cycles: n / 2 - 2, refill: (filler as u8, 8) };
    (setup, roles)
}

/// Commands do not reach two owners with 128 declarations each and 512 live links: a component has at most 32 dependencies,
/// each with one live link. This is as near in the declarations of an owner: one with 128 provisions, four with 32
/// dependencies each, 128 live links.
pub fn wide() -> Controller {
    let mut setup = Script::default();
    provider(&mut setup, &ports(0..128));
    for c in 0..4 {
        setup.insert(&ports(32 * c..32 * c + 32), &[]);
    }
    finish("128 provisions".into(), setup, 5, Roles { retired: 1, cycled: 4, cycles: 12, refill: (4, 0) })
}

/// Nearer in live links: one owner with 32 provisions, seven with those 32 dependencies each, 224 live links.
pub fn crowded() -> Controller {
    finish("224 live links".into(), crowd(), 8, Roles { retired: 1, cycled: 7, cycles: 9, refill: (7, 0) })
}

/// Its components, inserted.
fn crowd() -> Script {
    let mut setup = Script::default();
    provider(&mut setup, &ports(0..32));
    for _ in 0..7 {
        setup.insert(&ports(0..32), &[]);
    }
    setup
}

/// Links for a compaction, of which none, the first half or all are dead: 224 live ones; all seven components cycled; and stopped.
pub fn dead_links() -> [(&'static str, Script); 3] {
    let mut none = crowd();
    for id in 0..8 {
        none.start(id);
    }
    let mut half = none.clone();
    for id in 1..8 {
        half.cycle(id);
    }
    let mut all = half.clone();
    for id in 1..8 {
        all.stop(id);
    }
    [("224 links, none dead", none), ("448 links, half dead", half), ("448 links, all dead", all)]
}

/// 256 declarations for a compaction, of four owners that never begin, of which all, the second and the last, or none are present.
pub fn absent_owners() -> [(&'static str, Script); 3] {
    let none = owners();
    let (mut half, mut all) = (none.clone(), none.clone());
    for id in 0..4 {
        all.remove(id);
        if id % 2 == 0 {
            half.remove(id);
        }
    }
    [
        ("256 declarations, all owners present", none),
        ("256 declarations, half present", half),
        ("256 declarations, none present", all),
    ]
}

/// Those owners, all present, and the first port that identity 0 provides.
pub fn released() -> (&'static str, Script, Port) {
    ("256 declarations, the 33rd released", owners(), port(0))
}

/// Four owners, each with 32 provisions, and 32 dependencies on the ports that it provides.
fn owners() -> Script {
    let mut setup = Script::default();
    for id in 0..4 {
        let provided = ports(32 * id..32 * id + 32);
        setup.insert(&provided, &provided);
    }
    setup
}

/// 250 provisions whose keys are multiples of `step`, by five owners, and one component with six dependencies.
pub fn stepped(step: u64) -> Controller {
    let port = |i: usize| Port { key: step * i as u64, realm: 0 };
    let mut setup = Script::default();
    for owner in 0..5 {
        let owned: Vec<Port> = (50 * owner..50 * owner + 50).map(port).collect();
        provider(&mut setup, &owned);
    }
    let dependencies: Vec<Port> = (0..6).map(|i| port(40 * i)).collect();
    setup.insert(&dependencies, &[]);
    let roles = Roles { retired: 1, cycled: 5, cycles: 40, refill: (5, 0) };
    let mut controller = finish(format!("keys of {step}"), setup, 6, roles);
    controller.port = port(0);
    controller
}

/// Inserts an owner of these ports: 32 with the insert, the others declared.
fn provider(setup: &mut Script, ports: &[Port]) {
    let listed = ports.len().min(log::LIST);
    let id = setup.insert(&[], &ports[..listed]);
    for &p in &ports[listed..] {
        setup.of_port(log::DECLARE, id, p, 0);
    }
}

struct Roles {
    retired: u8,
    cycled: u8,
    cycles: usize,
    refill: (u8, usize),
}

/// Starts all components in the order of their identities, retires one and makes the dead links.
fn finish(name: String, mut setup: Script, components: usize, roles: Roles) -> Controller {
    for id in 0..components {
        setup.start(id as u8);
    }
    setup.of(log::RETIRE, roles.retired, 0);
    let (filler, times) = roles.refill;
    for _ in 0..times {
        setup.cycle(filler);
    }
    let Roles { retired, cycled, cycles, refill } = roles;
    Controller { name, setup, components: components as u8, retired, port: port(0), cycled, cycles, refill }
}
