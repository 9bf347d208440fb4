//! What the observers are asked after each command of a log.
use crate::guide::{Declaration, Guide, Link};
use crate::log::{self, Command, Next};
use crate::random::Random;
use crate::record::Question;
use crate::script::P;

/// A question for each command: mostly on the next command's identity, so that the target that a begin or a
/// leave_if_changed meets is observed just before it; one in five on a link's consumer and port; else on a declaration, a
/// removed owner's too, or on anything.
pub fn of(log: &[u8], random: &mut Random) -> Vec<Question> {
    let commands = commands(log);
    let mut guide = Guide::default();
    let mut questions = Vec::new();
    for at in 0..=commands.len() {
        if let Some(&command) = commands.get(at) {
            guide.play(command);
        }
        questions.push(question(commands.get(at + 1), &guide, random));
    }
    questions
}

fn question(next: Option<&Command>, guide: &Guide, random: &mut Random) -> Question {
    if let Some(link) = random.chance(20).then(|| link(guide, random)).flatten() {
        let consumer = if random.chance(90) { link.consumer as u8 } else { any_identity(random) };
        return Question { identity: consumer, key: link.port.key, realm: link.port.realm };
    }
    let declared = declaration(guide, random);
    let port = next.and_then(|c| c.port()).filter(|_| random.chance(50));
    let port = port.or(declared.map(|d| d.port)).unwrap_or(P);
    let identity = match (next.and_then(|c| c.identity()), declared) {
        (Some(id), _) if random.chance(70) => id,
        (_, Some(d)) if random.chance(70) => d.owner as u8,
        _ => any_identity(random),
    };
    Question { identity, key: port.key, realm: port.realm }
}

/// Any live link or any dead one, half of the time each if there are both.
fn link(guide: &Guide, random: &mut Random) -> Option<Link> {
    let (live, dead): (Vec<Link>, Vec<Link>) = guide.links.iter().partition(|l| l.live);
    let [first, second] = if random.chance(50) { [live, dead] } else { [dead, live] };
    random.pick(&first).or(random.pick(&second))
}

/// Any declaration; one time in four a provision of a retired or removed owner, if there is one.
fn declaration(guide: &Guide, random: &mut Random) -> Option<Declaration> {
    if random.chance(25) {
        let provisions = guide.declarations.iter().filter(|d| d.provides && guide.nodes[d.owner].retired);
        let found = random.pick(&provisions.copied().collect::<Vec<_>>());
        if found.is_some() {
            return found;
        }
    }
    random.pick(&guide.declarations)
}

/// The whole commands of a log.
fn commands(log: &[u8]) -> Vec<Command> {
    let (mut found, mut at) = (Vec::new(), 0);
    while let Next::Command(command, end) = log::read(log, at) {
        found.push(command);
        at = end;
    }
    found
}

fn any_identity(random: &mut Random) -> u8 {
    match random.below(4) {
        0 => random.pick(&[63, 64, 200, 255]).unwrap_or(64),
        1 => random.below(70) as u8,
        _ => random.below(12) as u8,
    }
}

/// The questions as the kernel reads them: 17 bytes each.
pub fn bytes(questions: &[Question]) -> Vec<u8> {
    let mut out = Vec::with_capacity(17 * questions.len());
    for q in questions {
        out.push(q.identity);
        out.extend(q.key.to_le_bytes());
        out.extend(q.realm.to_le_bytes());
    }
    out
}
