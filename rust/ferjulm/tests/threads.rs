//! What holds of threads: a box goes from one to another, and several may view and map it at once.

use cases::rig::{Call, Rig};
use cases::stored::{named, page};
use ferjulm::{
    Block, Cache, Caller, Condition, Fetched, Geometry, Image, Images, Offered, OfferedList, Place,
    Record, Refusal, Saved, View,
};
use std::thread;

fn is_send_and_sync<T: Send + Sync>() {}

#[test]
fn everything_is_send_and_sync() {
    is_send_and_sync::<Cache>();
    is_send_and_sync::<Images<Vec<u8>>>();
    is_send_and_sync::<Record>();
    is_send_and_sync::<View>();
    is_send_and_sync::<(Offered, OfferedList, Fetched, Condition)>();
    is_send_and_sync::<(Saved, Place, Refusal)>();
}

#[test]
fn several_threads_view_and_map_one_box_at_once() {
    let mut rig = Rig::formatted(Geometry::new(4, 8));
    for call in ["offer 5", "land 5 A", "fetch 2", "land fetch 2", "offer 6"] {
        rig.make(&Call::of(call)).said.expect(call);
    }
    let before = rig.clone();
    let cache = &rig.cache();
    thread::scope(|scope| {
        for _ in 0..4 {
            scope.spawn(move || {
                for turn in 0..2_000 {
                    let block = turn % 8;
                    let view = cache.view(Block(block)).expect("a view");
                    let landed = named("A");
                    let expected = match block {
                        5 => landed,
                        _ => page(block as u64),
                    };
                    assert!(view.page == &expected[..], "block {block}");
                    let cached = [5, 2].contains(&block);
                    assert_eq!(view.place.image == Image::Ssd, cached, "block {block}");
                    let mut sheet = [0; 67];
                    cache.map(&mut sheet).expect("a map");
                    assert!(sheet.starts_with(b"    0 dcw. "), "the map");
                }
            });
        }
    });
    assert!(rig == before, "views change nothing");
}

#[test]
fn a_box_goes_from_one_thread_to_another() {
    let mut rig = Rig::formatted(Geometry::new(4, 8));
    let mut cache = rig.cache();
    let stored = thread::scope(|scope| {
        let made = scope.spawn(move || cache.offer(Block(5), Caller::People));
        made.join().expect("a thread").expect("an offer").stored()
    });
    assert!(stored.is_some());
}
