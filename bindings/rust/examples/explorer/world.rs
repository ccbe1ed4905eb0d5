//! The rounds and the faults of four validators.

use crate::post::{MEMBERS, Outcome, Packet, Post};
use crate::validator::Validator;
use std::error::Error;
use std::process;
use std::sync::mpsc::{Receiver, channel};
use std::sync::{Arc, Mutex, MutexGuard, PoisonError};
use std::thread;
use std::time::{Duration, Instant};

/// The time of half a round: the blocks come in the first half, and the certificates in the second.
const HALF: Duration = Duration::from_millis(500);

pub struct World {
    pub post: Post,
    validators: Vec<Mutex<Validator>>,
    pace: Mutex<Pace>,
    pub began: Instant,
}

#[derive(Default)]
struct Pace {
    is_paused: bool,
    /// Whether the certificates of the round are still due.
    is_half: bool,
    /// How many halves of a round went by, also while the rounds are paused.
    beats: u64,
}

fn locked<T>(mutex: &Mutex<T>) -> MutexGuard<'_, T> {
    mutex.lock().unwrap_or_else(PoisonError::into_inner)
}

/// Ends the process: without it, the page would show stopped rounds.
fn fail(error: &(dyn Error + Send + Sync)) {
    eprintln!("the explorer failed: {error}");
    process::exit(1);
}

impl World {
    /// Starts the threads of the validators, and the one that makes the rounds.
    pub fn start() -> Outcome<Arc<World>> {
        let (inboxes, receivers): (Vec<_>, Vec<_>) = (0..MEMBERS).map(|_| channel()).unzip();
        let world = Arc::new(World {
            post: Post::new(inboxes),
            validators: (0..MEMBERS).map(Validator::new).map(Mutex::new).collect(),
            pace: Mutex::default(),
            began: Instant::now(),
        });
        for (me, inbox) in (0..).zip(receivers) {
            let world = Arc::clone(&world);
            thread::spawn(move || world.run(me, &inbox));
        }
        world.round(&mut locked(&world.pace))?;
        let pacer = Arc::clone(&world);
        thread::spawn(move || pacer.keep_pace());
        Ok(world)
    }

    pub fn validator(&self, number: u16) -> MutexGuard<'_, Validator> {
        locked(&self.validators[usize::from(number)])
    }

    fn all(&self) -> impl Iterator<Item = MutexGuard<'_, Validator>> {
        self.validators.iter().map(locked)
    }

    /// Whether the rounds are paused, and how many halves of a round went by.
    pub fn pace(&self) -> (bool, u64) {
        let pace = locked(&self.pace);
        (pace.is_paused, pace.beats)
    }

    /// Handles the messages of a validator.
    fn run(&self, me: u16, inbox: &Receiver<Packet>) {
        for (from, message) in inbox {
            let handled = self.validator(me).take(from, &message, &self.post);
            handled.unwrap_or_else(|error| fail(&*error));
            self.post.handled();
        }
    }

    fn keep_pace(&self) {
        loop {
            thread::sleep(HALF);
            let mut pace = locked(&self.pace);
            if !pace.is_paused {
                let made = self.half(&mut pace);
                made.unwrap_or_else(|error| fail(&*error));
            }
            pace.beats += 1;
        }
    }

    /// Makes the next half of a round.
    fn half(&self, pace: &mut Pace) -> Outcome<()> {
        let post = &self.post;
        if pace.is_half {
            self.all().try_for_each(|mut one| one.certify(post))?;
        } else {
            self.all().try_for_each(|mut one| one.wake(post))?;
            self.all().try_for_each(|mut one| one.tick(post))?;
        }
        pace.is_half = !pace.is_half;
        post.wait_until_quiet()?;
        let mut observed = self
            .all()
            .filter_map(|mut one| Some(one.node.as_mut()?.observe()));
        observed.try_for_each(|observed| observed)
    }

    fn round(&self, pace: &mut Pace) -> Outcome<()> {
        self.half(pace)?;
        self.half(pace)
    }

    /// Ends the round and makes no further one.
    fn pause(&self, pace: &mut Pace) -> Outcome<()> {
        pace.is_paused = true;
        if pace.is_half {
            self.half(pace)
        } else {
            Ok(())
        }
    }

    /// Does what a button asks for. Returns what it did, or `None` if there is no such button.
    pub fn act(&self, what: &str, number: Option<u16>) -> Outcome<Option<String>> {
        let pace = &mut *locked(&self.pace);
        Ok(Some(match (what, number) {
            ("pause", _) => {
                self.pause(pace)?;
                "Paused at the end of a round.".into()
            }
            ("step", _) => {
                self.pause(pace)?;
                self.round(pace)?;
                "The validators made a round.".into()
            }
            ("resume", _) => {
                pace.is_paused = false;
                "The validators make rounds.".into()
            }
            ("equivocate", Some(number)) => {
                self.validator(number).makes_twin = true;
                format!("Validator {number} makes two blocks in its next round.")
            }
            ("silent", Some(number)) => self.validator(number).change_silence(),
            ("lose", Some(number)) => {
                self.post.lose_next(number);
                format!("The next block for validator {number} is lost.")
            }
            ("crash", Some(number)) => {
                self.validator(number).crash();
                format!("Validator {number} lost its store. It replays its log in the next round.")
            }
            _ => return Ok(None),
        }))
    }
}
