//! Who may use the control socket: its group and its mode.

use crate::options::Options;
use crate::system::give_to_group;
use std::fs::{self, Permissions};
use std::os::unix::fs::PermissionsExt;

pub struct Access {
    mode: u32,
    /// By its number.
    group: Option<u32>,
}

impl Access {
    /// What the words ask for; a group that is not there is told before a socket is made.
    pub fn of(options: &Options) -> Result<Access, String> {
        let group = options.control_group.as_deref().map(number_of).transpose()?;
        Ok(Access { mode: options.control_mode, group })
    }

    /// The group first: with it nobody gets more than the mode says.
    pub fn give(&self, path: &str) -> Result<(), String> {
        if let Some(group) = self.group {
            give_to_group(path, group).map_err(|error| format!("{}: cannot be given to the group {}: {}", path, group, error))?;
        }
        fs::set_permissions(path, Permissions::from_mode(self.mode)).map_err(|error| format!("{}: {}", path, error))
    }
}

/// The number of a group by its name in /etc/group, or by the number itself.
fn number_of(group: &str) -> Result<u32, String> {
    if let Ok(number) = group.parse() {
        return Ok(number);
    }
    let known = fs::read_to_string("/etc/group").map_err(|error| format!("/etc/group: {}", error))?;
    find(&known, group).ok_or_else(|| format!("--control-group: no such group: {}", crate::readable::clean(group)))
}

fn find(known: &str, group: &str) -> Option<u32> {
    let line = known.lines().find(|line| line.split(':').next() == Some(group))?;
    line.split(':').nth(2)?.parse().ok()
}

/// A mode as chmod takes it: up to three octal digits.
pub fn mode(text: &str) -> Option<u32> {
    u32::from_str_radix(text, 8).ok().filter(|mode| *mode <= 0o777 && !text.starts_with('+'))
}

#[cfg(test)]
mod tests {
    use super::*;

    #[test]
    fn groups_and_modes() {
        let known = "root:x:0:\nadm:x:4:syslog,fitter\nadmins:x:40:\n";
        assert_eq!([find(known, "adm"), find(known, "admins"), find(known, "ad"), find(known, "x")], [Some(4), Some(40), None, None]);
        assert_eq!((number_of("17"), number_of("no such group").is_err()), (Ok(17), true));
        assert_eq!(
            [mode("660"), mode("0600"), mode("1777"), mode("68"), mode("+7"), mode("")],
            [Some(0o660), Some(0o600), None, None, None, None]
        );
    }
}
