//! A folder of its own for each test, and a script that is run there.

use std::fs;
use std::io::{Read, Write};
use std::path::{Path, PathBuf};
use std::process::{Child, Command, Stdio};
use std::time::{Duration, Instant};

/// A folder with a space in its name. It goes when the test is over.
pub struct Room(PathBuf);

/// How a script ended, and what it wrote.
pub struct Ended {
    pub status: Option<i32>,
    pub out: Vec<u8>,
    pub err: String,
}

impl Room {
    pub fn new(name: &str) -> Room {
        let folder = format!("scripts of the reference {} {name}", std::process::id());
        let room = Room(std::env::temp_dir().join(folder));
        fs::create_dir_all(room.at("kept")).unwrap();
        room
    }

    pub fn at(&self, part: &str) -> PathBuf {
        self.0.join(part)
    }

    pub fn write(&self, part: &str, bytes: &[u8]) {
        fs::create_dir_all(self.at(part).parent().unwrap()).unwrap();
        fs::write(self.at(part), bytes).unwrap();
    }

    /// A file that can be run. Another process writes it: a file that this one has open for writing cannot be run, and
    /// neither can one that a child of another test still has.
    pub fn script(&self, part: &str, text: &str) {
        fs::create_dir_all(self.at(part).parent().unwrap()).unwrap();
        let mut writer = Command::new("sh")
            .args(["-c", r#"cat >"$0" && chmod +x "$0""#])
            .arg(self.at(part))
            .stdin(Stdio::piped())
            .spawn()
            .unwrap();
        let mut input = writer.stdin.take().unwrap();
        input.write_all(text.as_bytes()).unwrap();
        drop(input);
        assert!(writer.wait().unwrap().success());
    }

    /// A script of the repository, as it stands.
    pub fn copy(&self, name: &str, part: &str) {
        let root = Path::new(env!("CARGO_MANIFEST_DIR")).join("../..");
        self.script(part, &fs::read_to_string(root.join(name)).unwrap());
    }

    /// A script of the repository that starts a program by `run`, and the file that such scripts share, in a folder.
    pub fn copy_starter(&self, name: &str, folder: &str) {
        self.copy(name, &format!("{folder}/{name}"));
        self.copy("keep.sh", &format!("{folder}/keep.sh"));
    }

    /// A command in this folder that sees nothing of the toolchain and keeps its temporary files here.
    pub fn command(&self, program: &str) -> Command {
        let mut command = Command::new(program);
        command
            .current_dir(&self.0)
            .env("TMPDIR", self.at("kept"))
            .env_remove("RATTLE_HOME")
            .stdin(Stdio::null())
            .stdout(Stdio::piped())
            .stderr(Stdio::piped());
        command
    }

    /// By `sh`, so that the words can close, redirect or ignore something first.
    pub fn shell(&self, words: &str) -> Command {
        let mut command = self.command("sh");
        command.args(["-c", words]);
        command
    }

    /// The names in a folder, in order.
    pub fn names(&self, part: &str) -> Vec<String> {
        let mut names: Vec<_> = fs::read_dir(self.at(part))
            .unwrap()
            .map(|entry| entry.unwrap().file_name().into_string().unwrap())
            .collect();
        names.sort();
        names
    }

    pub fn wait_for(&self, part: &str) {
        let begun = Instant::now();
        while !self.at(part).exists() {
            assert!(begun.elapsed() < Duration::from_secs(20), "no {part}");
            std::thread::sleep(Duration::from_millis(10));
        }
    }
}

impl Drop for Room {
    fn drop(&mut self) {
        let _ = fs::remove_dir_all(&self.0);
    }
}

/// Runs a command until nobody has its output open any more: neither itself nor anything that it has started.
pub fn end(mut command: Command) -> Ended {
    ended(command.spawn().unwrap())
}

pub fn ended(child: Child) -> Ended {
    let output = child.wait_with_output().unwrap();
    Ended {
        status: output.status.code(),
        out: output.stdout,
        err: String::from_utf8(output.stderr).unwrap(),
    }
}

/// Reads some bytes of what a child writes, and leaves the rest.
pub fn first(child: &mut Child, count: usize) -> Vec<u8> {
    let mut bytes = vec![0; count];
    child
        .stdout
        .as_mut()
        .unwrap()
        .read_exact(&mut bytes)
        .unwrap();
    bytes
}

pub fn signal(child: &Child, name: &str) {
    let sent = Command::new("kill")
        .args(["-s", name, &child.id().to_string()])
        .status();
    assert!(sent.unwrap().success());
}
