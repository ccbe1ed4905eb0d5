//! The paths of the server.

use crate::http::{Request, Response};
use crate::json;
use crate::post::MEMBERS;
use crate::world::World;
use narwhal_store::Digest;

const PAGE: &str = include_str!("page.html");
const BAD_REQUEST: &str = "400 Bad Request";

type Answer = Result<Response, &'static str>;

/// Answers a request:
///
/// - `GET /` is the page;
/// - `GET /state?store=N` says what the page shows of a store;
/// - `GET /block?store=N&digest=HEX` says what it shows of a block;
/// - `POST /do?what=W&validator=N` does what a button asks for: pause, step, resume, equivocate, silent, lose or crash.
///
/// Other paths get 404, other methods 405, and bad queries 400. A digest of no block of the store gets 404.
pub fn answer(world: &World, request: &Request) -> Response {
    let answered = match (request.method.as_str(), request.path.as_str()) {
        ("GET", "/") => page(request),
        ("GET", "/state") => state(world, request),
        ("GET", "/block") => block(world, request),
        ("POST", "/do") => act(world, request),
        (_, "/" | "/state" | "/block" | "/do") => Err("405 Method Not Allowed"),
        _ => Err("404 Not Found"),
    };
    answered.unwrap_or_else(Response::error)
}

fn page(request: &Request) -> Answer {
    let [] = values(request, [])?;
    Ok(Response {
        status: "200 OK",
        kind: "text/html; charset=utf-8",
        body: PAGE.into(),
    })
}

fn state(world: &World, request: &Request) -> Answer {
    let [store] = values(request, ["store"])?;
    Ok(Response::json(json::state(world, member(store)?)))
}

fn block(world: &World, request: &Request) -> Answer {
    let [store, digest] = values(request, ["store", "digest"])?;
    let store = member(store)?;
    let digest: Digest = digest
        .and_then(|text| text.parse().ok())
        .ok_or(BAD_REQUEST)?;
    let mut validator = world.validator(store);
    let found = validator
        .node
        .as_mut()
        .and_then(|node| json::block(node, &digest));
    found.map(Response::json).ok_or("404 Not Found")
}

fn act(world: &World, request: &Request) -> Answer {
    let [what, validator] = values(request, ["what", "validator"])?;
    let number = validator.map(|_| member(validator)).transpose()?;
    let did = world.act(what.unwrap_or_default(), number);
    let did = did.map_err(|_| "500 Internal Server Error")?;
    let did = did.ok_or(BAD_REQUEST)?;
    Ok(Response::json(json::object([("did", &json::text(did))])))
}

/// The number of a member.
fn member(value: Option<&str>) -> Result<u16, &'static str> {
    let number = value.and_then(|text| text.parse().ok());
    number.filter(|number| *number < MEMBERS).ok_or(BAD_REQUEST)
}

/// The values of these names. The query may have no other name, and each name once.
fn values<'a, const N: usize>(
    request: &'a Request,
    names: [&str; N],
) -> Result<[Option<&'a str>; N], &'static str> {
    let mut values = [None; N];
    for (name, value) in &request.query {
        let place = names
            .iter()
            .position(|known| known == name)
            .ok_or(BAD_REQUEST)?;
        if values[place].replace(value.as_str()).is_some() {
            return Err(BAD_REQUEST);
        }
    }
    Ok(values)
}
