//! A page that shows four validators on the store: their DAG as it grows, faults, and the history of each write.
//!
//! ```text
//! cargo run --release --example explorer            opens a page on a free port of 127.0.0.1 and prints its URL
//! cargo run --release --example explorer -- 8080    opens it on this port
//! ```
//!
//! Each validator has a store and a thread. `validator.rs` follows `narwhal_validator::Flow`, and `../../tests/hostile/decide.rs` decides the leaders.
//! `world.rs` makes the rounds and the faults, `post.rs` is the network, `http.rs` the server, and `page.html` the page.
//!
//! The members sign at run time with the demonstration signer of `tests/lab`, whose secrets are public.

#[path = "../../tests/hostile/decide.rs"]
mod decide;
mod http;
mod json;
#[path = "../../tests/lab/mod.rs"]
mod lab;
mod log;
mod node;
mod post;
mod site;
mod validator;
mod world;

use post::Outcome;
use std::env;
use std::net::TcpListener;
use world::World;

fn main() -> Outcome<()> {
    let port = match &env::args().skip(1).collect::<Vec<_>>()[..] {
        [] => 0,
        [port] => port.parse().map_err(|_| "the port is not a number")?,
        _ => return Err("give a port or no argument".into()),
    };
    let listener = TcpListener::bind(("127.0.0.1", port))?;
    println!("http://{}/", listener.local_addr()?);
    let world = World::start()?;
    http::serve(&listener, move |request| site::answer(&world, request));
    Ok(())
}
