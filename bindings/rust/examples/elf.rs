//! Tells what the header of an ELF file says, as `readelf -h` does, puts Linux's ABI in it, and writes the file anew: elf FROM TO.
use pybuf::{ByteArray, Error, Item, Le, View};
use std::fs::File;
use std::mem::size_of;
use std::{env, io};

/// The item at a byte of the header, read where it lies.
fn item<T: Item>(header: &View<'_>, at: i64) -> Result<T, Error> {
    header.slice(at..at + size_of::<T>() as i64)?.cast::<T>()?.get(0)
}

fn main() -> Result<(), Box<dyn std::error::Error>> {
    let words: Vec<String> = env::args().collect();
    let [_, from, to] = &words[..] else {
        return Err("elf FROM TO".into());
    };
    let mut file = ByteArray::new(b"")?;
    io::copy(&mut File::open(from)?, &mut file)?;

    let header = file.as_view()?.slice(..64)?;
    if header.len() < 64 || header.slice(..6)? != *b"\x7fELF\x02\x01" {
        return Err("this is no ELF file of 64 bits with the lowest byte first".into());
    }
    println!("  Entry point address:               {:#x}", item::<Le<u64>>(&header, 24)?.0);
    println!("  Start of section headers:          {} (bytes into file)", item::<Le<u64>>(&header, 40)?.0);
    println!("  Size of this header:               {} (bytes)", item::<Le<u16>>(&header, 52)?.0);
    println!("  Number of section headers:         {}", item::<Le<u16>>(&header, 60)?.0);
    drop(header);

    file.as_view_mut()?.set(7, 3)?;
    io::copy(&mut file.as_view()?.reader(), &mut File::create(to)?)?;
    Ok(())
}
