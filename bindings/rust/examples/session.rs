//! Six lines through a world and by objects, then the session of the README's head by objects, and its bytes by a format. Prints
//! what each answers.
use pybuf::{ByteArray, Format, RunError, World};

fn main() -> Result<(), RunError> {
    let mut world = World::new()?;
    for reply in world.run("new bytearray x616263\nview h0\nset h1 0 65\nget h1 0\nbytes h1\nrelease h1\n")? {
        println!("{reply}");
    }

    let array = ByteArray::new(b"abc")?;
    let view = array.view()?;
    view.set(0, 65)?;
    println!("{} {:?}", view.get(0)?, String::from_utf8_lossy(&view.to_bytes()?));
    view.release()?;

    let b = ByteArray::new(b"\x01\x00\x02\x00")?;
    let m = b.view()?;
    let n = m.cast("H")?;
    println!("{}", n.get(0)?);
    n.set(1, 258)?;
    println!("{:?}", b.to_bytes()?);
    println!("{:?}", n.shape()?);
    println!("{}", b.exports()?);
    if let Err(error) = b.append(0) {
        println!("{error}");
    }
    n.release()?;
    if let Err(error) = n.get(0) {
        println!("{error}");
    }

    let format = Format::new("<2H")?;
    println!("{:?}", format.unpack(&b.to_bytes()?)?);
    if let Err(error) = format.pack(&[1.into(), 65536.into()]) {
        println!("{error}");
    }
    Ok(())
}
