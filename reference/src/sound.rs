//! The sound store, rule by rule as document 01 gives it.

use crate::layout::*;

/// Whether a store of 36,864 bytes keeps every rule.
pub fn is_sound(store: &[u8]) -> bool {
    used_places(store) && fields(store) && tree(store)
}

/// Used is 0 or 1; unused places are zero; none stands before a used one.
fn used_places(store: &[u8]) -> bool {
    let places = || (0..PLACES).map(|at| place(store, at));
    let used = places().take_while(|place| place[USED] == 1).count();
    places().skip(used).all(is_zero)
}

fn fields(store: &[u8]) -> bool {
    devices(store).all(|at| place_fields(at, place(store, at)))
}

/// Speed, status, error and hub hold listed values, number is 0 or place + 1,
/// and what a place doesn't need is zero.
fn place_fields(at: usize, place: &[u8]) -> bool {
    let number = usize::from(place[NUMBER]);
    let not_needed = match place[HUB] {
        0 => &place[HUB_DESCRIPTOR..=MAX_CHILDREN],
        1 => &place[HUB_DESCRIPTOR..HUB_STATUS],
        _ => &[],
    };
    place[SPEED] <= 2
        && place[STATUS] <= 4
        && place[HUB] <= 2
        && is_transfer_error(word(place, ERROR))
        && (number == 0 || number == at + 1)
        && usize::from(place[MAX_CHILDREN]) <= PORTS
        && is_zero(not_needed)
        && is_zero(&place[MAX_CHILDREN + 1..RECORD])
        && is_zero(&place[RECORD_END..])
}

/// Children are used places; every used place but the root is a child exactly
/// once, of a hub at a smaller place; its parent is 0 or that hub, with that
/// port; the root is nobody's child and has no parent.
fn tree(store: &[u8]) -> bool {
    let mut standing = [None; PLACES];
    for hub in devices(store) {
        for port in 0..PORTS {
            let child = usize::from(place(store, hub)[CHILDREN + port]);
            if child == 0 {
                continue;
            }
            let child = child - 1;
            if child <= hub || !is_used(store, child) || standing[child].is_some() {
                return false;
            }
            standing[child] = Some((hub, port));
        }
    }
    devices(store).all(|at| has_its_parent(at, place(store, at), standing[at]))
}

fn has_its_parent(at: usize, place: &[u8], standing: Option<(usize, usize)>) -> bool {
    let parent = usize::from(place[PARENT]);
    match standing {
        None => at == 0 && parent == 0,
        Some((hub, port)) => {
            parent == 0 || (parent == hub + 1 && usize::from(place[PORT_NUMBER]) == port)
        }
    }
}

/// Without an early exit, so that it is compiled to vector instructions.
fn is_zero(bytes: &[u8]) -> bool {
    bytes.iter().fold(0, |all, byte| all | byte) == 0
}
