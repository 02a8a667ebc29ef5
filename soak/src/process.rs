//! What this process holds of the system.

use std::{fs, io};

/// What could leak.
#[derive(Clone, Copy, Debug, Default, PartialEq, Eq)]
pub struct Holding {
    /// Open file descriptors.
    pub descriptors: usize,
    pub threads: usize,
    /// Resident memory in KiB.
    pub memory: usize,
}

impl Holding {
    pub fn now() -> io::Result<Holding> {
        Ok(Holding {
            // the folder that is read is one of them
            descriptors: fs::read_dir("/proc/self/fd")?.count().saturating_sub(1),
            threads: fs::read_dir("/proc/self/task")?.count(),
            memory: resident(&fs::read_to_string("/proc/self/status")?)
                .ok_or_else(|| io::Error::other("the system tells no memory"))?,
        })
    }

    /// The more of each.
    pub fn most(self, other: Holding) -> Holding {
        Holding {
            descriptors: self.descriptors.max(other.descriptors),
            threads: self.threads.max(other.threads),
            memory: self.memory.max(other.memory),
        }
    }
}

fn resident(status: &str) -> Option<usize> {
    let line = status
        .lines()
        .find_map(|line| line.strip_prefix("VmRSS:"))?;
    line.split_whitespace().next()?.parse().ok()
}

#[cfg(test)]
mod tests {
    use super::*;

    #[test]
    fn what_is_kept_is_seen() {
        let before = Holding::now().unwrap();
        let file = fs::File::open("/proc/self/status").unwrap();
        let kept = vec![1_u8; 32 << 20];
        let after = Holding::now().unwrap();
        assert!(after.descriptors > before.descriptors);
        assert!(after.memory >= before.memory + (30 << 10));
        drop((file, kept));
    }

    #[test]
    fn memory_is_in_its_line() {
        assert_eq!(resident("VmSize:\t 9 kB\nVmRSS:\t  1234 kB\n"), Some(1_234));
        assert_eq!(resident("VmSize:\t 9 kB\n"), None);
    }
}
