//! What goes from thread to thread: worlds, formats, and owners of bytes without a view.
use pybuf::{ByteArray, Bytes, Detached, Format, World};
use std::sync::mpsc::channel;
use std::sync::Mutex;
use std::thread;

#[test]
fn what_is_proved_to_be_sent_is_send() {
    fn sent<T: Send>() {}
    sent::<World>();
    sent::<Format>();
    sent::<Detached<ByteArray>>();
    sent::<Detached<Bytes>>();
}

#[test]
fn a_bytearray_goes_round_four_threads() {
    let (first, mut from) = channel();
    for byte in 1..=4 {
        let (to, next) = channel();
        thread::spawn(move || {
            let array = ByteArray::from(from.recv().unwrap());
            array.append(byte).unwrap();
            to.send(array.detach().unwrap()).unwrap();
        });
        from = next;
    }
    first.send(ByteArray::new(&[0]).unwrap().detach().unwrap()).unwrap();
    assert_eq!(ByteArray::from(from.recv().unwrap()), *b"\0\x01\x02\x03\x04");
}

#[test]
fn an_array_with_a_view_stays() {
    let array = ByteArray::new(b"ab").unwrap();
    let view = array.view().unwrap();
    let array = array.detach().unwrap_err();
    view.set(0, 65).unwrap();
    assert_eq!(array, *b"Ab");
    drop(view);
    assert_eq!(format!("{:?}", array.detach().unwrap()), "Detached { .. }");
}

#[test]
fn four_threads_share_a_world_by_a_lock() {
    let world = Mutex::new(World::new().unwrap());
    world.lock().unwrap().run("new bytearray\n").unwrap();
    thread::scope(|scope| {
        for _ in 0..4 {
            scope.spawn(|| {
                for _ in 0..50 {
                    world.lock().unwrap().run("append h0 1\n").unwrap();
                }
            });
        }
    });
    assert_eq!(world.into_inner().unwrap().run("len h0\n").unwrap(), ["200"]);
}
