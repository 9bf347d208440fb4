//! One kernel made by hand: its lines for the program `cases`, with the answers of lib.rs's bodies.
use crate::asked::{self, refusal, Asked};
use crate::calls::Call;
use crate::cases::Line;
use crate::log::Port;
use crate::met::{Met, CHECK_INSERT, CHECK_ITERATION};
use crate::random::Random;
use crate::record::Record;
use crate::reference::{self, drained, hit, lookup, Reference, Step};
use crate::sound::sound;
use crate::text;
use crate::tried::{self, Trial};

pub struct Session<'a> {
    reference: Reference,
    lines: &'a mut Vec<Line>,
    met: &'a mut Met,
}

/// Writes a kernel, asks about it, tries commands on it, then plays some after each other.
pub fn play(start: &Record, random: &mut Random, lines: &mut Vec<Line>, met: &mut Met) {
    let mut s = Session { reference: Reference::of(start), lines, met };
    s.met.kernel(start, &s.reference);
    s.write(start);
    let (identities, ports) = (tried::identities(start, random), tried::ports(start, random));
    let (far, links) = (tried::far(&identities), tried::links(start, random));
    s.observe(&identities, &far, &ports, &links);
    s.drain(start);
    s.hits(&far);
    for trial in tried::each(&identities, &far, &ports, random) {
        if s.trial(&trial, true) {
            s.set("back".to_string());
            s.reference = Reference::of(start);
        }
    }
    for _ in 0..tried::WALK {
        s.trial(&tried::any(&identities, &ports, random), false);
    }
    s.observe(&identities, &far, &ports, &links);
    s.hits(&far);
    s.tables();
}

/// Writes a kernel, drains it and asks who is hit if a component leaves.
pub fn drain_and_ask(start: &Record, lines: &mut Vec<Line>, met: &mut Met) {
    let mut s = Session { reference: Reference::of(start), lines, met };
    s.met.kernel(start, &s.reference);
    s.write(start);
    s.drain(start);
    s.hits(&tried::far(&[0]));
}

/// Writes a kernel that is not sound: drain, stop and affected refuse it.
pub fn damaged(start: &Record, lines: &mut Vec<Line>, met: &mut Met) {
    let mut s = Session { reference: Reference::new(), lines, met };
    s.met.damaged += 1;
    s.set("new".to_string());
    text::tables(start).lines().for_each(|line| s.set(line.to_string()));
    s.expect("sound".to_string(), "no".to_string());
    s.expect("drain".to_string(), "refused 10, steps 0".to_string());
    for id in (0..=start.nodes.len()).chain(tried::far(&[0])) {
        s.expect(format!("affected {id}"), "refused 10, empty".to_string());
    }
    s.expect("stop".to_string(), "refused 10, commands 0, unchanged".to_string());
}

impl Session<'_> {
    /// The drain and what stop hands back; then the drain's own commands, after which nothing is left to drain.
    fn drain(&mut self, start: &Record) {
        let (mut left, length) = (self.reference.clone(), drained::length(self.reference.kernel()));
        let list = left.drain();
        self.met.drain(length);
        self.ask(None, vec![asked::drain(&list, length)]);
        let changed = if left.record(0, 0, None) == *start { "unchanged" } else { "changed" };
        self.expect("stop".to_string(), format!("done, commands {length}, {changed}"));
        self.reference = left;
        self.tables();
        self.set("back".to_string());
        self.reference = Reference::of(start);
        for (call, _) in list {
            self.trial(&Trial::without_lists(call), false);
        }
        self.ask(None, vec![asked::drain(&[], 0)]);
        self.set("back".to_string());
        self.reference = Reference::of(start);
    }

    /// Who is hit if a component leaves: of each identity, of the next one and of those that no kernel has.
    fn hits(&mut self, far: &[usize]) {
        let now = self.reference.record(0, 0, None);
        self.met.hits.kernels += 1;
        for id in (0..=now.nodes.len()).chain(far.iter().copied()) {
            let hit = hit::affected(self.reference.kernel(), id);
            self.met.hits.count(&now, id, &hit);
            self.ask(Some(id), vec![asked::affected(id, &hit)]);
        }
    }

    /// A line that writes the kernel or sets what later lines use.
    fn set(&mut self, text: String) {
        self.lines.push(Line { text, answer: None, commands: self.met.commands });
    }

    fn expect(&mut self, text: String, answer: String) {
        self.lines.push(Line { text, answer: Some(answer), commands: self.met.commands });
    }

    /// The kernel's own lines are those that `tables` prints.
    fn write(&mut self, start: &Record) {
        self.set("new".to_string());
        text::tables(start).lines().for_each(|line| self.set(line.to_string()));
        self.tables();
        self.set("keep".to_string());
    }

    /// The three tables and whether they are sound; the program ends them with an empty line.
    fn tables(&mut self) {
        let now = self.reference.record(0, 0, None);
        let sound = if sound(&now) { "sound" } else { "not sound" };
        self.met.tables += 1;
        self.expect("tables".to_string(), format!("{sound}\n{}\n", text::tables(&now)));
    }

    /// Questions that name an identity, or none.
    fn ask(&mut self, named: Option<usize>, questions: Vec<Asked>) {
        self.met.asked(named, questions.len() as u64);
        questions.into_iter().for_each(|(line, answer)| self.expect(line, answer));
    }

    /// Every observer and check_iteration.
    fn observe(&mut self, identities: &[usize], far: &[usize], ports: &[Port], links: &[(usize, Port)]) {
        let now = self.reference.record(0, 0, None);
        let sound = if sound(&now) { "yes" } else { "no" };
        self.ask(None, vec![("sound".to_string(), sound.to_string())]);
        self.ask(None, asked::of_all(self.reference.kernel()));
        for &id in identities.iter().chain(far) {
            self.observe_identity(id, ports);
            ports.iter().for_each(|&port| self.link_generation(&now, id, port));
        }
        for &(consumer, port) in links {
            let far = tried::far(&[consumer]);
            [consumer].iter().chain(&far).for_each(|&id| self.link_generation(&now, id, port));
        }
        for &port in ports {
            let answer = lookup::lookup(self.reference.kernel(), reference::port(port));
            self.met.lookups.resolve(answer);
            self.ask(None, vec![asked::resolve(port, answer)]);
        }
    }

    fn observe_identity(&mut self, id: usize, ports: &[Port]) {
        self.ask(Some(id), asked::of_identity(self.reference.kernel(), id));
        self.target(id);
        let own = self.reference.check_iteration(id);
        self.met.answer(CHECK_ITERATION, &Step { answer: own, detail: 0, own, intended: None });
        self.ask(Some(id), vec![(format!("check_iteration {id}"), refusal(own))]);
        for &port in ports {
            self.ask(Some(id), asked::of_declaration(self.reference.kernel(), id, port));
        }
    }

    fn link_generation(&mut self, now: &Record, id: usize, port: Port) {
        let answer = self.reference.link_generation(id, port);
        self.met.lookups.link_generation(answer, now.has_dead_link(id as u64, port.key, port.realm));
        self.ask(Some(id), vec![asked::link_generation(id, port, answer)]);
    }

    fn target(&mut self, id: usize) {
        let kernel = self.reference.kernel();
        let missing = lookup::missing(kernel, id);
        let asked = asked::target(kernel, id, missing);
        self.met.lookups.target(kernel.target(id).is_some(), missing);
        self.ask(Some(id), vec![asked]);
    }

    /// The lists that insert and configure take, and use up.
    fn list(&mut self, trial: &Trial) {
        let lists = [trial.dependencies.lines("dependencies"), trial.provisions.lines("provisions")];
        lists.into_iter().flatten().for_each(|line| self.set(line));
        self.reference.list(&trial.dependencies.ports(), &trial.provisions.ports());
    }

    fn check_insert(&mut self, parent: Option<usize>) {
        let step = self.reference.check_insert(parent);
        self.met.answer(CHECK_INSERT, &step);
        let line = format!("check_insert {}", tried::parent(parent));
        self.ask(parent, vec![(line, hidden(&step).unwrap_or(refusal(step.answer)))]);
    }

    /// Makes a call, an insert after check_insert if `check`; whether it changed the kernel. Where it did, the tables
    /// are compared; elsewhere the program's own answer says that nothing changed.
    fn trial(&mut self, trial: &Trial, check: bool) -> bool {
        let before = self.reference.record(0, 0, None);
        self.list(trial);
        if let (Call::Insert(parent), true) = (trial.call, check) {
            self.check_insert(parent);
        }
        let step = self.reference.call(trial.call);
        let after = self.reference.record(0, 0, None);
        let changed = after != before;
        self.met.command(trial.call, &step, &before, &after);
        self.expect(tried::line(trial.call), hidden(&step).unwrap_or(told(trial.call, &step, changed)));
        if changed {
            self.tables();
        }
        changed
    }
}

/// A refusal that hides an answer of lib.rs's wrongly: a text that the program never prints.
fn hidden(step: &Step) -> Option<String> {
    step.hides_wrongly().then(|| format!("a refusal hides lib.rs's answer {}", step.own))
}

/// A command's answer as the program prints it.
fn told(call: Call, step: &Step, changed: bool) -> String {
    let changed = if changed { "changed" } else { "unchanged" };
    match call {
        Call::Insert(_) if step.answer == 0 => format!("identity {}, {changed}", step.detail),
        Call::CompactBindings | Call::CompactDeclarations => {
            format!("{}, removed {}, {changed}", refusal(step.answer), step.detail)
        }
        _ => format!("{}, {changed}", refusal(step.answer)),
    }
}
