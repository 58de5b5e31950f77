//! error[E0277] a world that two threads use at once
use pybuf::World;

fn main() {
    let world = World::new().unwrap();
    std::thread::scope(|scope| {
        scope.spawn(|| drop(&world));
        drop(&world);
    });
}
