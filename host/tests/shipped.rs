//! The shipped Rust beside the model, on the scenes that the library plays.

mod lock_scenes;
mod messages;
mod stripe_scenes;
mod tables;

use gilboreth_host::beside::Beside;
use gilboreth_host::calls::SHIPPED;

#[test]
fn locks() {
    use lock_scenes::{damage, drawn, edges, limits, lists, sessions};
    let mut shipped = Beside::new(SHIPPED);
    sessions::play(&mut shipped, 0..40, 4);
    sessions::play(&mut shipped, 0..4, 9);
    limits::full_tables(&mut shipped, 0..2);
    limits::highest_handles(&mut shipped, 0..40);
    drawn::small(&mut shipped, 0..500);
    drawn::large(&mut shipped, 0..10);
    damage::rules(&mut shipped);
    damage::flips(&mut shipped, 0..200);
    damage::each_bit(&mut shipped);
    damage::each_record(&mut shipped);
    damage::pairs(&mut shipped, 0..500);
    damage::each_byte_after(&mut shipped);
    edges::numbers(&mut shipped);
    edges::fields(&mut shipped);
    edges::lengths(&mut shipped);
    lists::lengths(&mut shipped);
    lists::rules(&mut shipped);
    lists::bad_items(&mut shipped);
    lists::full_tables(&mut shipped, 0..2);
    lists::drawn_tables(&mut shipped, 0..500);
    lists::one_by_one(&mut shipped, 0..200);
    lists::sessions(&mut shipped, 0..20, 3);
    lists::sessions(&mut shipped, 80..84, 1);
    lists::most_events(&mut shipped);
    lists::many_events(&mut shipped);
    lists::numbers(&mut shipped);
    lists::nothing_accepted(&mut shipped);
    shipped.reached(90_000, &[0, 1, 2, 3, 4, 5, 6, 7, 8, 9, 10, 11, 19]);
    shipped.reached_items(100_000, &[0, 3, 4, 5, 6, 7, 8]);
}

#[test]
fn stripe() {
    use stripe_scenes::{compactions, cuts, damage, edges, limits, pieces, restarts};
    let mut shipped = Beside::new(SHIPPED);
    pieces::small(&mut shipped, 0..200);
    pieces::large(&mut shipped, 0..10);
    cuts::crowded(&mut shipped, 0..100);
    cuts::compacted(&mut shipped, 0..100, false);
    cuts::at_the_limit_of_runs(&mut shipped, 0..1);
    cuts::at_the_limit_of_entries(&mut shipped, 0..1);
    cuts::past_the_limit_of_entries(&mut shipped, 0..1);
    limits::notes(&mut shipped);
    limits::drawn_notes(&mut shipped, 0..20);
    limits::restarts(&mut shipped, 0..1);
    limits::full_logs(&mut shipped, 0..2);
    restarts::of_every_kind(&mut shipped);
    restarts::crowded(&mut shipped, 0..400);
    compactions::over_any_content(&mut shipped, 0..20);
    compactions::at_the_limit_of_runs(&mut shipped);
    compactions::notes_after(&mut shipped);
    edges::notes(&mut shipped);
    edges::writes(&mut shipped);
    edges::pairs(&mut shipped);
    edges::fields(&mut shipped);
    edges::counts(&mut shipped);
    edges::lengths(&mut shipped);
    damage::flips(&mut shipped, 0..100);
    damage::each_bit(&mut shipped);
    damage::each_run(&mut shipped);
    damage::each_byte_after(&mut shipped);
    shipped.reached(250_000, &[0, 12, 13, 14, 15, 16, 17, 18]);
}
