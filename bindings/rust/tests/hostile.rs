//! Attacks on a validator that follows the documents: by peers without a key, and by members of the committee.
//!
//! ```text
//! cargo test --release --test hostile                    200 seeds
//! SEED=17 cargo test --release --test hostile            one seed, which a failure prints
//! SEEDS=10000 cargo test --release --test hostile        the first 10,000 seeds
//! ```

#[path = "hostile/budgets.rs"]
mod budgets;
#[path = "hostile/costs.rs"]
mod costs;
#[path = "hostile/decide.rs"]
mod decide;
#[path = "hostile/drops.rs"]
mod drops;
#[path = "hostile/faulty.rs"]
mod faulty;
#[path = "hostile/floods.rs"]
mod floods;
#[path = "hostile/heard.rs"]
mod heard;
#[path = "hostile/honest.rs"]
mod honest;
mod lab;
#[path = "hostile/logs.rs"]
mod logs;
#[path = "hostile/rounds.rs"]
mod rounds;
#[path = "hostile/seeds.rs"]
mod seeds;
#[allow(dead_code)] // Only the simulator tallies.
#[path = "simulator/draw.rs"]
mod simulator_draw;
#[path = "hostile/votes.rs"]
mod votes;
#[path = "hostile/world.rs"]
mod world;
