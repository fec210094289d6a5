//! A host whose plug-ins are closures: it counts packets, and tells the first one to a name server.

use codzvregi::{Arg, Bind, Event, Fault, Host, Script};

fn main() -> Result<(), Fault> {
    // a packet is bytes that a filter may change, and a port; the results are added
    let packet = Event::new("Bw:w").merge("fold + a0 a1");
    let mut host = Host::open(&Script::new().event("Net.Packet", packet).event("Net.Name", "b"), 1)?;

    let strip_tag = |call: &mut codzvregi::Call<'_>| {
        let rest = call.bytes(0)[2..].to_vec();
        call.change(0, Arg::Bytes(&rest)); // for those behind
    };
    host.bind("Net.Packet", Bind::new(strip_tag).filter().first())?;

    let to_name_server = Bind::new(|call| {
        let packet = call.bytes(0).to_vec();
        call.raise("Net.Name", &[Arg::Bytes(&packet)])?; // upwards, from within
        Ok::<u64, Fault>(100)
    });
    host.bind("Net.Packet", to_name_server.guard(|call| call.word(1) == 53))?;
    host.bind("Net.Packet", Bind::new(|call| call.bytes(0).len() as u64))?;

    let first_name = Bind::new(|call| {
        println!("name: {}", String::from_utf8_lossy(call.bytes(0)));
        call.host().unbind("Net.Name", "first_name").map(|_| ()) // what is raised later doesn't see it
    });
    host.bind("Net.Name", first_name.named("first_name"))?;

    for port in [53, 80, 53] {
        let reply = host.raise("Net.Packet", &[Arg::Bytes(b"\x00\x07name"), Arg::Word(port)])?;
        println!("{port} {:?}", reply.answer);
    }
    Ok(())
}
