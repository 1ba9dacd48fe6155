//! "Direct commands, standard".

use super::change::Change;
use super::module::Module;
use super::reply::Reply;

/// Ping and ID request, which strangers may send too.
pub fn open_to_all(command1: u8, command2: u8) -> Option<Reply> {
    match command1 {
        0x0F => Some(Reply::ack(command1, command2)),
        0x10 => Some(Reply::Identity { command2 }),
        _ => None,
    }
}

/// All other rows; nothing where the command, or the number in it, is not listed.
pub fn carry_out(module: &Module, command1: u8, command2: u8) -> Option<(Change<'static>, Reply)> {
    let reply = match (command1, command2) {
        (0x0D, _) => Reply::ack(0x0D, 0x02),
        (0x19, _) => Reply::ack(module.delta, module.load.shown(command2)?),
        (0x1F, 0x00) => Reply::ack(0x1F, module.flags),
        (0x1F, 0x01) => Reply::ack(0x1F, module.delta),
        (0x30, _) => Reply::ack(command1, command2),
        _ => {
            let load = module.load.after_standard(command1, command2)?;
            return Some((Change::Load(load), Reply::ack(command1, command2)));
        }
    };
    Some((Change::Nothing, reply))
}
