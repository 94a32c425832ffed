//! A day at one desk: a login, a write, a read, sightings, the records read back, told and printed as scan lines, and a new
//! password.
use std::num::NonZeroU8;

use depot::{block, lines, records, sound, timer, Ask, Block, Desk, Kind, Refusal, Request, Store, Told, EEPROM, REPLY_SIZE};

/// Asks a desk: the request is made, handed to the box, and the reply is read.
fn ask<'a>(store: &mut Store<Box<[u8]>>, desk: Desk, ask: Ask, reply: &'a mut [u8; REPLY_SIZE]) -> Result<Told<'a>, Refusal> {
    let request = Request { kind: Kind::Advanced, desk, ask };
    let mut out = [0; REPLY_SIZE];
    let frame = request.make(&mut out)?;
    let answer = store.frame(frame, reply)?;
    request.read(answer)
}

fn main() -> Result<(), Refusal> {
    let mut store = Store::fresh();
    let desk = Desk::new(2).expect("desks 0 to 7");
    let mut reply = [0; REPLY_SIZE];

    let login = ask(&mut store, desk, Ask::Login(0), &mut reply)?;
    println!("login: status {:02X}", login.status);

    // Block 7 shapes a line: hex digits, a semicolon between UID and timer, LF, and four octets before it all.
    let shape: Block = [2, 0x10, 0, 0x02, 0, 0, 0, 0, b'T', b'A', b'G', b' ', 0, 0x40];
    let write = ask(&mut store, desk, Ask::WriteBlock(7, shape), &mut reply)?;
    println!("write: status {:02X}", write.status);

    let read = ask(&mut store, desk, Ask::ReadBlock(7), &mut reply)?;
    let block = block(read.data)?;
    println!("read: status {:02X}, the same block: {}", read.status, block == shape);

    let antenna = NonZeroU8::MIN;
    for uid in [0xE007_0000_0164_5E37, 0xE007_0000_0164_5E38, 0xE007_0000_0164_5E37] {
        println!("sighting: {:?}", store.sighting(desk, uid, antenna));
        store.tick();
    }

    let told = ask(&mut store, desk, Ask::SendTimer, &mut reply)?;
    println!("timer: {:?}", timer(told.data)?);

    let told = ask(&mut store, desk, Ask::ReadRecords(64), &mut reply)?;
    println!("records: status {:02X}", told.status);
    for record in records(told.data)? {
        println!("tag {:016X} at {} ms, antennas {:02X}", record.uid, record.timer.milliseconds, record.mask);
    }
    let mut text = [0; 1024];
    print!("{}", String::from_utf8_lossy(lines(&block, told.data, &mut text)?));

    let removed = ask(&mut store, desk, Ask::RemoveRecords, &mut reply)?;
    println!("remove: status {:02X}", removed.status);

    // A new password goes into EEPROM; into RAM it is turned down. RAM has the old one until a reset.
    let password: Block = [0x12, 0x34, 0x56, 0x78, 0, 0, 0, 0, 0, 0, 0, 0, 0, 0];
    let asks = [Ask::WriteBlock(0, password), Ask::WriteBlock(EEPROM, password), Ask::Reset, Ask::Login(0), Ask::Login(0x1234_5678)];
    for (what, one) in ["password into RAM", "password into EEPROM", "reset", "login", "login"].iter().zip(asks) {
        println!("{what}: status {:02X}", ask(&mut store, desk, one, &mut reply)?.status);
    }
    let refused = ask(&mut store, desk, Ask::ReadRecords(0), &mut reply);
    println!("none asked: {}", refused.unwrap_err());
    println!("sound: {}", sound(store.octets()).is_ok());
    Ok(())
}
