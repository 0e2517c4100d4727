//! The proved library in a process of its own, asked over pipes; `answers.c` is the other side.

use crate::process::Process;

/// The library, which answers as `answers.c` does.
pub struct Library {
    process: Process,
    message: Vec<u8>,
}

impl Library {
    pub fn start(command: &str) -> Library {
        Library {
            process: Process::start(command),
            message: Vec::new(),
        }
    }

    /// What accepting these bytes gives (refusal * 2^32 + place, or the number of activities and
    /// arms), and then what showing each of these activities gives (refusal * 2^48 + start * 2^24
    /// + length).
    pub fn answers(&mut self, bytes: &[u8], activities: &[u32]) -> Vec<u64> {
        let number = |n: usize| u32::try_from(n).expect("a short message").to_le_bytes();
        self.message.clear();
        self.message.extend(number(bytes.len()));
        self.message.extend(bytes);
        self.message.extend(number(activities.len()));
        for k in activities {
            self.message.extend(k.to_le_bytes());
        }
        self.process
            .say(&self.message)
            .expect("the library listens");
        let mut answer = vec![0; 8 * (1 + activities.len())];
        self.process
            .hear(&mut answer)
            .expect("the library answers: it ended, or its stack did");
        answer
            .chunks_exact(8)
            .map(|eight| u64::from_le_bytes(eight.try_into().expect("eight bytes")))
            .collect()
    }
}
