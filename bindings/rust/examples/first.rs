//! One member writes a block of one transaction, and reads it back.
use narwhal_store::{Block, Checked, Committee, Limits, Store};

// The member's public key, and its signature of the block. Any Ed25519 library makes both.
const KEY: &str = "b1e281447549fd943d16645ad3dc9eadac410bf57b088568b28330f362eb6440";
const SIGNATURE: &str = "100df078007058a2a433eb0e865f10d7120fa20e3f6c89ac9c35510f7d4e6a92\
                         faa7cc8417b30d9dbcdbc42b864b0828ad172bee46ecebf8f0aa3572d4c65406";

fn main() -> Result<(), Box<dyn std::error::Error>> {
    let committee = Committee::equal(&[KEY.parse()?])?;
    let store = Store::new(&committee, Limits::default())?;
    let mut session = store.session()?;

    let block = Block::new(0, 0, &[], &["x"])?; // author 0, round 0, no parents
    let message = block.message(&SIGNATURE.parse()?);
    if let Checked::Block(checked) = committee.check(&message)? {
        println!("{:?}", session.write(&checked)?.reply());
    }
    let found = session.read(&block.digest())?.into_reply();
    println!("{:?}", found.map(|block| block.body().len()));
    Ok(())
}
