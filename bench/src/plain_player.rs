//! A log played on the plain kernel.
use super::kernel::{Error, Kernel, Port, PortList};
use crate::log;

/// Plays a log and writes each answer; how many there were.
pub fn play(log: &[u8], answers: &mut [u8]) -> usize {
    play_then(log, answers, |_| ())
}

/// Plays a log, and hands the kernel that it leaves on.
pub fn play_then(mut log: &[u8], answers: &mut [u8], then: impl FnOnce(Kernel)) -> usize {
    let mut kernel = Kernel::new();
    let (mut dependencies, mut provisions) = (PortList::new(), PortList::new());
    let mut answered = 0;
    while let Some(command) = log::next(&mut log) {
        let answer;
        match command.byte {
            log::DEPENDENCY => answer = pend(&mut dependencies, port(&command)),
            log::PROVISION => answer = pend(&mut provisions, port(&command)),
            log::INSERT => {
                let outcome = kernel.insert(command.parent(), &dependencies, &provisions);
                kernel = outcome.kernel;
                answer = number(outcome.answer);
                (dependencies.count, provisions.count) = (0, 0);
            }
            log::COMPACT_BINDINGS => {
                let outcome = kernel.compact_bindings();
                kernel = outcome.kernel;
                answer = number(outcome.answer);
            }
            log::COMPACT_DECLARATIONS => {
                let outcome = kernel.compact_declarations();
                kernel = outcome.kernel;
                answer = number(outcome.answer);
            }
            byte => {
                let id = command.identity();
                let outcome = match byte {
                    log::BEGIN => kernel.begin(id),
                    log::FINISH => kernel.finish(id),
                    log::LEAVE => kernel.leave(id),
                    log::LEAVE_IF_CHANGED => kernel.leave_if_changed(id),
                    log::RETIRE => kernel.retire(id),
                    log::BEGIN_CLEANUP => kernel.begin_cleanup(id),
                    log::FINISH_CLEANUP => kernel.finish_cleanup(id),
                    log::REMOVE => kernel.remove(id),
                    log::DECLARE => kernel.declare_provision(id, port(&command)),
                    log::RELEASE => kernel.release_provision(id, port(&command)),
                    _ => kernel.configure_pending_dependencies(id, &dependencies),
                };
                kernel = outcome.kernel;
                answer = number(outcome.answer);
                if byte == log::CONFIGURE {
                    (dependencies.count, provisions.count) = (0, 0);
                }
            }
        }
        answers[answered] = answer;
        answered += 1;
    }
    then(kernel);
    answered
}

fn port(command: &log::Command) -> Port {
    let log::Port { key, realm } = command.port();
    Port { key, realm }
}

fn pend(list: &mut PortList, port: Port) -> u8 {
    if list.count == log::LIST {
        return log::LIST_FULL;
    }
    list.ports[list.count] = port;
    list.count += 1;
    0
}

fn number<T>(answer: Result<T, Error>) -> u8 {
    answer.map_or_else(|e| e as u8, |_| 0)
}
