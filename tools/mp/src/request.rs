//! A rename's request as a file: fixed numbers, and behind them the further groups and both paths.

use mirepillar::Request;

/// The bytes ahead of the groups.
const HEAD: usize = 26;

/// A request with all that it owns.
#[derive(Clone, Debug, PartialEq, Eq)]
pub struct Asked {
    pub user: u32,
    pub group: u32,
    pub groups: Vec<u32>,
    pub cwd: u16,
    pub old_start: u8,
    pub new_start: u8,
    pub now: u64,
    pub flags: u32,
    pub old: Vec<u8>,
    pub new: Vec<u8>,
}

impl Asked {
    /// The request as the library takes it.
    pub fn request(&self) -> Request<'_> {
        Request {
            user: self.user,
            group: self.group,
            groups: &self.groups,
            cwd: self.cwd,
            old_start: self.old_start,
            new_start: self.new_start,
            now: self.now,
            flags: self.flags,
            old: &self.old,
            new: &self.new,
        }
    }

    /// Reads a request; the flags are not in it. A length that does not fit its own numbers is a sentence.
    pub fn read(bytes: &[u8]) -> Result<Asked, String> {
        let head = bytes
            .get(..HEAD)
            .ok_or_else(|| format!("a request has at least {HEAD} bytes, and this one {}", bytes.len()))?;
        let word = |at: usize| u16::from_le_bytes([head[at], head[at + 1]]);
        let double = |at: usize| u32::from(word(at)) | u32::from(word(at + 2)) << 16;
        let [groups, old, new] = [20, 22, 24].map(|at| usize::from(word(at)));
        let length = HEAD + 4 * groups + old + new;
        if bytes.len() != length {
            return Err(format!("by its own numbers ({groups} groups, paths of {old} and {new} bytes) it has {length} bytes, and it has {}", bytes.len()));
        }
        let (groups, paths) = bytes[HEAD..].split_at(4 * groups);
        Ok(Asked {
            user: double(0),
            group: double(4),
            now: u64::from(double(8)) | u64::from(double(12)) << 32,
            cwd: word(16),
            old_start: head[18],
            new_start: head[19],
            groups: groups
                .chunks_exact(4)
                .map(|group| u32::from_le_bytes([group[0], group[1], group[2], group[3]]))
                .collect(),
            flags: 0,
            old: paths[..old].to_vec(),
            new: paths[old..].to_vec(),
        })
    }

    /// The bytes of the request without its flags, or a sentence where a list is longer than two bytes can count.
    pub fn write(&self) -> Result<Vec<u8>, String> {
        let mut bytes = Vec::new();
        bytes.extend(self.user.to_le_bytes());
        bytes.extend(self.group.to_le_bytes());
        bytes.extend(self.now.to_le_bytes());
        bytes.extend(self.cwd.to_le_bytes());
        bytes.extend([self.old_start, self.new_start]);
        for (what, length) in [("groups", self.groups.len()), ("bytes", self.old.len()), ("bytes", self.new.len())] {
            let count =
                u16::try_from(length).map_err(|_| format!("a request has no place for {length} {what} in a list"))?;
            bytes.extend(count.to_le_bytes());
        }
        self.groups.iter().for_each(|group| bytes.extend(group.to_le_bytes()));
        bytes.extend(&self.old);
        bytes.extend(&self.new);
        Ok(bytes)
    }
}

impl Asked {
    /// The call in a line, as `rename /a/f to /b/g by user 100 in group 100, at time 500`.
    pub fn said(&self) -> String {
        let [old, new] = [&self.old, &self.new].map(|path| shown(path));
        let (user, group, now) = (self.user, self.group, self.now);
        let call = match self.flags {
            mirepillar::EXCHANGE => format!("exchange {old} and {new}"),
            mirepillar::NO_REPLACE => format!("rename {old} to {new}, replacing nothing,"),
            _ => format!("rename {old} to {new}"),
        };
        format!("{call} by user {user} in group {group}, at time {now}")
    }
}

/// A path for people: bytes that are no letters are escaped.
fn shown(path: &[u8]) -> String {
    path.escape_ascii().to_string()
}
