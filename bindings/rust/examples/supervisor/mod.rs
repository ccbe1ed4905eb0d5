//! The supervisor of the example `durable`, and the disks, which lose what was not synced, and change one copy of the log.

use crate::{Result, random};
use std::collections::BTreeMap;
use std::io::{BufRead, BufReader};
use std::path::{Path, PathBuf};
use std::process::{Child, Command, Stdio};
use std::{env, fs, process, thread, time::Duration};

const DISK: &str = concat!(env!("CARGO_MANIFEST_DIR"), "/tests/lost_pages.c");
/// What the copies of the log have after its name.
const COPIES: [&str; 2] = ["", ".copy"];
const STOPS: u64 = 100;
/// The most stops until a mode that is wrong must show it.
const MOST_STOPS: u64 = 5_000;

/// Runs the validator again and again, stops it at a random moment, and compares the votes that it sent.
pub fn supervise(mode: &str, messages: &[u8]) -> Result<()> {
    let folder = env::temp_dir().join(format!("narwhal-durable-{}", process::id()));
    fs::create_dir(&folder)?;
    fs::write(folder.join("messages"), messages)?;
    let mut supervisor = Supervisor {
        mode,
        disk: disk(&folder),
        log: folder.canonicalize()?.join("log"),
        votes: BTreeMap::new(),
        is_damaged: false,
        old: Vec::new(),
        seen: Seen::default(),
    };
    let most = if mode == "right" { STOPS } else { MOST_STOPS };
    let mut outcome = Ok(());
    while outcome.is_ok() && supervisor.seen.stops < most && supervisor.seen.differing == 0 {
        outcome = supervisor.run();
    }
    fs::remove_dir_all(&folder)?;
    outcome?;
    supervisor.seen.judge(supervisor.disk.is_some())
}

/// Compiles the disk that loses what was not synced.
fn disk(folder: &Path) -> Option<PathBuf> {
    let library = folder.join("lost_pages.so");
    let mut compiler = Command::new("cc");
    compiler
        .args(["-shared", "-fPIC", DISK, "-o"])
        .arg(&library);
    match compiler.status() {
        Ok(status) if status.success() => Some(library),
        _ => {
            println!("cc is missing or failed, so the power never fails");
            None
        }
    }
}

/// What happened in all runs.
#[derive(Default)]
struct Seen {
    stops: u64,
    power_failures: u64,
    cut: u64,
    repaired: u64,
    sent: u64,
    slots: u64,
    differing: u64,
}

impl Seen {
    fn judge(&self, has_disk: bool) -> Result<()> {
        let kills = self.stops - self.power_failures;
        println!("{kills} kills, {} power failures", self.power_failures);
        println!("{} logs had a bad end, which was cut", self.cut);
        println!("{} logs had a bad copy, which was repaired", self.repaired);
        println!("{} votes sent for {} slots", self.sent, self.slots);
        println!("{} differ from the first for their slot", self.differing);
        if self.differing > 0 {
            return Err("a slot got two votes".into());
        }
        let is_enough = self.sent >= 500 && self.slots >= 100;
        let is_damaged = self.power_failures >= 10 && self.cut > 0 && self.repaired >= 10;
        if !is_enough || has_disk && !is_damaged {
            return Err("too little happened".into());
        }
        Ok(())
    }
}

struct Supervisor<'a> {
    mode: &'a str,
    disk: Option<PathBuf>,
    log: PathBuf,
    /// The first vote for each slot, since the log was made.
    votes: BTreeMap<String, String>,
    /// Whether a copy of the log was damaged since the validator last opened it.
    is_damaged: bool,
    /// What both copies had synced at an earlier stop.
    old: Vec<u8>,
    seen: Seen,
}

impl Supervisor<'_> {
    /// Runs the validator until it is stopped or has taken all messages.
    fn run(&mut self) -> Result<()> {
        let mut validator = self.start()?;
        let pipe = validator.stdout.take().ok_or("no pipe")?;
        // The kill comes after the votes that earlier runs sent, or early in the replay of the log. A validator that does not sync what it
        // read ends its replay, and then dies at its first sync.
        let before = match (self.mode, random() % 4) {
            ("old-replay", _) if self.seen.stops % 3 == 1 => u64::MAX / 2,
            (_, 0) => 0,
            _ => self.votes.len() as u64,
        };
        let last = before + random() % 10;
        for (count, line) in (0..).zip(BufReader::new(pipe).lines()) {
            if count == last {
                let most = if self.mode == "one-copy" { 1 } else { 8_000 };
                thread::sleep(Duration::from_micros(random() % most));
                validator.kill()?; // The votes that the pipe still has were sent too.
            }
            self.hear(&line?)?;
        }
        match validator.wait()?.code() {
            None => self.stop(),
            Some(0) => self.forget(), // It is done. The next run has a new log.
            Some(code) => Err(format!("the validator ended with {code}").into()),
        }
    }

    fn start(&self) -> Result<Child> {
        let mut command = Command::new(env::current_exe()?);
        command.arg("validator").arg(&self.log).arg(self.mode);
        if let Some(disk) = &self.disk {
            command.env("LD_PRELOAD", disk).env("LOST_PAGES", &self.log);
            // The first of three validators dies between an append and its sync. The next one replays a record that the disk lacks,
            // and dies before its first sync.
            match self.seen.stops % 3 {
                _ if self.mode == "one-copy" => {}
                // Before the first sync of the two copies, or between them.
                0 => drop(command.env("DIE_AT_SYNC", (1 + random() % 20).to_string())),
                1 => drop(command.env("DIE_AT_SYNC", "1")),
                _ => {}
            }
        }
        Ok(command.stdout(Stdio::piped()).spawn()?)
    }

    fn hear(&mut self, line: &str) -> Result<()> {
        if let Some(opened) = line.strip_prefix("opened ") {
            self.is_damaged = false;
            self.seen.cut += u64::from(opened.starts_with("true"));
            self.seen.repaired += u64::from(opened.ends_with("true"));
            return Ok(());
        }
        let (slot, digest) = line.rsplit_once(' ').ok_or("no vote")?;
        self.seen.slots += u64::from(!self.votes.contains_key(slot));
        let first = self.votes.entry(slot.into()).or_insert(digest.into());
        self.seen.differing += u64::from(first != digest);
        self.seen.sent += 1;
        Ok(())
    }

    /// The validator was killed. The power also fails at the second of three stops, and at half of the third ones.
    fn stop(&mut self) -> Result<()> {
        let power_fails = match self.seen.stops % 3 {
            0 => false,
            1 => true,
            _ => random() % 2 == 0,
        };
        self.seen.stops += 1;
        if self.mode == "forget" {
            return self.remove_log();
        }
        if power_fails && self.disk.is_some() {
            self.seen.power_failures += 1;
            COPIES.iter().try_for_each(|copy| self.fail_power(copy))?;
        }
        // By the fault model, only one copy of an entry changes until the log is repaired.
        let has_bad_disk = matches!(self.mode, "right" | "one-copy" | "old-copies");
        if has_bad_disk && self.disk.is_some() && !self.is_damaged && random() % 2 == 0 {
            self.is_damaged = true;
            self.damage()?;
        }
        Ok(())
    }

    /// Leaves of a copy what was synced, and of the rest a part, zeros or garbage. Of a validator that is wrong it leaves nothing else, so
    /// that fewer stops show it.
    fn fail_power(&self, copy: &str) -> Result<()> {
        let Ok(mut bytes) = fs::read(self.beside(copy)) else {
            return Ok(());
        };
        if !self.beside(&format!("{copy}.named")).exists() {
            return self.remove(copy);
        }
        let synced = self.synced(copy);
        let rest = match self.mode {
            "right" => bytes.len().saturating_sub(synced) as u64,
            _ => 0,
        };
        bytes.truncate(synced + (random() % (rest + 1)) as usize);
        let kind = random() % 3;
        for byte in bytes.iter_mut().skip(synced) {
            *byte = [*byte, 0, random() as u8][kind as usize];
        }
        self.put(copy, &bytes)
    }

    /// Changes, removes or replaces one copy. The modes that are wrong leave no good one.
    fn damage(&mut self) -> Result<()> {
        let copy = COPIES[random() as usize % 2];
        let Ok(bytes) = fs::read(self.beside(copy)) else {
            return Ok(());
        };
        let both = self.both();
        match (self.mode, random() % 4) {
            ("one-copy", _) => {
                let length = self.synced("").min(bytes.len());
                self.put("", &with_changed_end(&bytes[..length]))?;
            }
            ("old-copies", _) if !self.old.is_empty() => {
                COPIES
                    .iter()
                    .try_for_each(|copy| self.put(copy, &self.old))?;
            }
            (_, 0) => self.put(copy, &with_changed_end(&bytes))?,
            (_, 1) if !bytes.is_empty() => {
                let mut bytes = bytes;
                let place = random() as usize % bytes.len();
                bytes[place] ^= 1 << (random() % 8);
                self.put(copy, &bytes)?;
            }
            (_, 2) => self.remove(copy)?,
            // The copy of this log, or of the longer one that it replaced.
            _ if self.old.is_empty() || is_same_or_next(&self.old, &bytes) => {
                self.put(copy, &self.old)?;
            }
            _ => self.remove(copy)?,
        }
        if random() % 4 == 0 {
            self.old = both;
        }
        Ok(())
    }

    /// What both copies have, and had synced. An entry of one copy only may give way to another one, so an older state has none.
    fn both(&self) -> Vec<u8> {
        let [one, other] = COPIES.map(|copy| fs::read(self.beside(copy)).unwrap_or_default());
        let synced = self.synced(COPIES[0]).min(self.synced(COPIES[1]));
        let same = one.iter().zip(&other).take(synced);
        let length = same.take_while(|(a, b)| a == b).count();
        one[..length].to_vec()
    }

    /// The bytes of a copy that the disk has.
    fn synced(&self, copy: &str) -> usize {
        let noted = fs::read(self.beside(&format!("{copy}.synced"))).ok();
        let bytes = noted.and_then(|noted| noted.try_into().ok());
        bytes.map_or(0, u64::from_ne_bytes) as usize
    }

    /// Writes a copy, as the disk has it.
    fn put(&self, copy: &str, bytes: &[u8]) -> Result<()> {
        fs::write(self.beside(copy), bytes)?;
        let noted = self.beside(&format!("{copy}.synced"));
        Ok(fs::write(noted, (bytes.len() as u64).to_ne_bytes())?)
    }

    /// Begins again, with a new log.
    fn forget(&mut self) -> Result<()> {
        self.votes.clear();
        self.old.clear();
        self.remove_log()
    }

    fn remove_log(&self) -> Result<()> {
        COPIES.iter().try_for_each(|copy| self.remove(copy))
    }

    fn remove(&self, copy: &str) -> Result<()> {
        for suffix in ["", ".synced", ".named"] {
            fs::remove_file(self.beside(&format!("{copy}{suffix}"))).ok();
        }
        Ok(())
    }

    fn beside(&self, suffix: &str) -> PathBuf {
        self.log.with_file_name(format!("log{suffix}"))
    }
}

/// Whether a copy is of the same log as an old one, or of the log that replaced that. The copy begins with the marks of both logs.
fn is_same_or_next(old: &[u8], copy: &[u8]) -> bool {
    let mark = old.get(..8);
    mark.is_some() && (mark == copy.get(..8) || mark == copy.get(8..16))
}

/// The bytes with one of the last changed.
fn with_changed_end(bytes: &[u8]) -> Vec<u8> {
    let mut bytes = bytes.to_vec();
    let most = bytes.len().min(30);
    if most > 0 {
        let place = bytes.len() - 1 - random() as usize % most;
        bytes[place] ^= 1 << (random() % 8);
    }
    bytes
}
