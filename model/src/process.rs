//! A program that answers for the proved library, in a process of its own, spoken to over pipes. It ends with the value that stands for it.

use std::io::{self, Read, Write};
use std::process::{Child, ChildStdin, ChildStdout, Command, Stdio};

pub struct Process {
    command: String,
    child: Child,
    ask: Option<ChildStdin>,
    told: ChildStdout,
}

impl Process {
    /// Starts the command, its words apart by blanks.
    pub fn start(command: &str) -> Process {
        let mut words = command.split_whitespace();
        let program = words.next().expect("a command for the library");
        let mut child = Command::new(program)
            .args(words)
            .stdin(Stdio::piped())
            .stdout(Stdio::piped())
            .spawn()
            .unwrap_or_else(|error| panic!("{program}: {error}"));
        Process {
            command: command.to_string(),
            ask: child.stdin.take(),
            told: child.stdout.take().expect("a pipe"),
            child,
        }
    }

    /// Another process of the same command.
    pub fn again(&self) -> Process {
        Process::start(&self.command)
    }

    /// Sends it a message; an error where the process has ended.
    pub fn say(&mut self, message: &[u8]) -> io::Result<()> {
        self.ask.as_mut().expect("an open pipe").write_all(message)
    }

    /// Hears as many bytes from it as fill this; an error where the process has ended.
    pub fn hear(&mut self, answer: &mut [u8]) -> io::Result<()> {
        self.told.read_exact(answer)
    }
}

impl Drop for Process {
    fn drop(&mut self) {
        self.ask = None;
        let _ = self.child.wait();
    }
}
