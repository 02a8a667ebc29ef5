//! Who has to be closed by a tick, by the clock alone: the record's own counts are not looked at.

use melorwyth::record::{CONNECTIONS, MUTES};

/// What is known of one connection.
#[derive(Clone, Copy, Debug, Default)]
struct Watched {
    /// The heartbeat H in milliseconds; 0 while it is not supervised.
    beat: u64,
    /// When its last whole message was heard.
    heard: u64,
}

/// What a tick freed.
#[derive(Clone, Copy, Debug, Default, PartialEq, Eq)]
pub struct Freed {
    /// How many connections it closed.
    pub connections: u64,
    /// How many locks these held.
    pub locks: u64,
    /// How many milliseconds behind 3 x H the latest of these was closed; less than the tick's step.
    pub behind: u64,
}

/// Time as the readings bring it, without going round.
#[derive(Clone, Debug)]
pub struct Supervision {
    now: u64,
    reading: u32,
    watched: [Watched; CONNECTIONS],
    /// Who held which lock before this call: 0 nobody, else the connection plus 1.
    holders: [u8; MUTES],
}

impl Supervision {
    pub fn new(reading: u32) -> Supervision {
        Supervision {
            now: 0,
            reading,
            watched: Default::default(),
            holders: [0; MUTES],
        }
    }

    /// A whole message of that connection, which has this heartbeat behind it.
    pub fn heard(&mut self, n: u8, beat: u64) {
        let heard = self.now;
        self.watched[usize::from(n)] = Watched { beat, heard };
    }

    /// A connection that is opened or gone: nothing of it is supervised.
    pub fn anew(&mut self, n: u8) {
        self.watched[usize::from(n)] = Watched::default();
    }

    /// What the record says of locks, behind every call.
    pub fn note(&mut self, holders: [u8; MUTES]) {
        self.holders = holders;
    }

    /// A tick that closed the connections of this mask and left the locks so: exactly those silent for 3 x H are
    /// closed, and none of their locks is left.
    pub fn tick(&mut self, reading: u32, mask: u8, left: &[u8; MUTES]) -> Result<Freed, String> {
        self.now += u64::from(reading.wrapping_sub(self.reading));
        self.reading = reading;
        let mut freed = Freed::default();
        for n in 0..CONNECTIONS {
            let Watched { beat, heard } = self.watched[n];
            let silence = self.now - heard;
            let gone = beat > 0 && silence >= 3 * beat;
            let closed = mask & (1 << n) != 0;
            if gone != closed {
                return Err(format!(
                    "connection {n}, H {beat}, silent for {silence} ms: closed by the tick is {closed}"
                ));
            }
            if closed {
                self.free(n, silence - 3 * beat, left, &mut freed)?;
            }
        }
        Ok(freed)
    }

    fn free(
        &mut self,
        n: usize,
        behind: u64,
        left: &[u8; MUTES],
        freed: &mut Freed,
    ) -> Result<(), String> {
        let own = |holder: &&u8| usize::from(**holder) == n + 1;
        if let Some(channel) = left.iter().position(|holder| own(&holder)) {
            let channel = channel + 1;
            return Err(format!(
                "connection {n} is closed and holds the lock of channel {channel}"
            ));
        }
        freed.connections += 1;
        freed.locks += self.holders.iter().filter(own).count() as u64;
        freed.behind = freed.behind.max(behind);
        self.anew(n as u8);
        Ok(())
    }
}

#[cfg(test)]
mod tests {
    use super::*;

    const NONE: [u8; MUTES] = [0; MUTES];

    /// Connection 2 with H 100, heard at reading 50, and holding channels 1 and 5.
    fn tablet() -> Supervision {
        let mut supervision = Supervision::new(u32::MAX - 99);
        supervision.tick(50, 0, &NONE).unwrap();
        supervision.heard(2, 100);
        supervision.note([3, 0, 0, 0, 3, 0, 0, 1]);
        supervision
    }

    #[test]
    fn three_heartbeats_close() {
        let held = [3, 0, 0, 0, 3, 0, 0, 1];
        let mut supervision = tablet();
        assert_eq!(supervision.tick(349, 0, &held), Ok(Freed::default()));
        let freed = Freed {
            connections: 1,
            locks: 2,
            behind: 1,
        };
        let left = [0, 0, 0, 0, 0, 0, 0, 1];
        assert_eq!(supervision.tick(351, 0b100, &left), Ok(freed));
        assert_eq!(supervision.tick(9_999, 0, &left), Ok(Freed::default()));
    }

    #[test]
    fn a_wrong_closure_is_told() {
        let left = [0, 0, 0, 0, 0, 0, 0, 1];
        // too early, too late, another one, one that is not supervised
        assert!(tablet().tick(349, 0b100, &left).is_err());
        assert!(tablet().tick(350, 0, &left).is_err());
        assert!(tablet().tick(350, 0b1000, &left).is_err());
        assert!(tablet().tick(350, 0b101, &left).is_err());
        // the counter went round: 150 ms were brought before the tablet was heard
        assert!(tablet().tick(200, 0b100, &left).is_err());
    }

    #[test]
    fn a_lock_that_stays_is_told() {
        let stays = [0, 0, 0, 0, 3, 0, 0, 1];
        let told = tablet().tick(350, 0b100, &stays).unwrap_err();
        assert!(told.contains("channel 5"), "{told}");
    }

    #[test]
    fn heartbeat_zero_ends_it() {
        let mut supervision = tablet();
        supervision.heard(2, 0);
        assert_eq!(supervision.tick(99_999, 0, &NONE), Ok(Freed::default()));
        let mut supervision = tablet();
        supervision.anew(2);
        assert_eq!(supervision.tick(99_999, 0, &NONE), Ok(Freed::default()));
    }
}
