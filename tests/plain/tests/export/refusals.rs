//! 19 with an export open, and 20 with none, which goes before 8. Neither changes
//! anything.

use crate::common::lent::Lent;
use crate::portions::portion;
use crate::{filled, install, numbered, put};
use plain::engine::Engine;

/// Where one is open: it stays, with all that is left of it.
pub fn no_other(engine: &mut Engine) {
    let before = engine.clone();
    assert_eq!(numbered(engine.open_export()), Err(19));
    assert!(*engine == before);
}

/// Where none is open. Nothing lent is written to.
pub fn nothing_to_take(engine: &mut Engine) {
    let before = engine.clone();
    for lengths in [[0; 3], [3; 3], [1024, 0, 64]] {
        let mut lent = Lent::new(lengths);
        assert_eq!(numbered(lent.portion(engine)), Err(20));
        assert_eq!(lent, Lent::new(lengths));
    }
    for length in [0, 7, 8, 20_000] {
        let mut bytes = vec![85; length];
        assert_eq!(numbered(engine.file(&mut bytes)), Err(20));
        assert_eq!(bytes, vec![85; length]);
    }
    assert_eq!(numbered(engine.close_export()), Err(20));
    assert!(*engine == before);
}

/// A fresh map, an export in each of its states, and a map whose export was closed.
#[test]
fn one_at_a_time() {
    nothing_to_take(&mut Engine::default());
    let (mut engine, contents) = filled(3);
    nothing_to_take(&mut engine);
    assert_eq!(engine.open_export(), Ok(3));
    for left in (1..=3).rev() {
        no_other(&mut engine);
        assert_eq!(portion(&mut engine, [1; 3], left), [contents[3 - left]]);
    }
    no_other(&mut engine);
    assert_eq!(engine.close_export(), Ok(()));
    nothing_to_take(&mut engine);
}

/// The open one stays as it was, and only the next one shows what came later.
#[test]
fn a_refused_opening_renews_nothing() {
    let (mut engine, contents) = filled(3);
    assert_eq!(engine.open_export(), Ok(3));
    install(&mut engine, &[(1, put(1, 1))]);
    no_other(&mut engine);
    assert_eq!(portion(&mut engine, [4; 3], 3), contents);
    assert_eq!(engine.close_export(), Ok(()));
    assert_eq!(engine.open_export(), Ok(4));
}
