//! The devices of a store, on the bench start and on any bytes.
#![allow(
    clippy::arithmetic_side_effects,
    clippy::indexing_slicing,
    clippy::panic,
    clippy::unwrap_used
)]

mod common;

use common::{bench_start, Random};
use lidrumak::{Device, HubPort, PortStatus, Speed, Status, Store, STORE_LENGTH};

const fn at(hub: u32, port: u32) -> HubPort {
    HubPort { hub, port }
}

const ROOT: Device = Device {
    place: 0,
    address: 1,
    number: 1,
    speed: Speed::High,
    status: Status::Configured,
    port: None,
    ports: Some(4),
    class: 9,
    device_class: 9,
    vendor: 0x0424,
    product: 0x2412,
    configuration_value: 1,
};

const FIRST: Device = Device {
    place: 1,
    address: 2,
    number: 2,
    speed: Speed::Full,
    port: Some(at(0, 1)),
    ports: None,
    class: 0xff,
    device_class: 0xff,
    vendor: 0x1234,
    product: 1,
    ..ROOT
};

const HUB: Device = Device {
    place: 2,
    address: 3,
    number: 3,
    port: Some(at(0, 2)),
    ports: Some(2),
    ..ROOT
};

const SECOND: Device = Device {
    place: 3,
    address: 4,
    number: 4,
    port: Some(at(2, 0)),
    product: 2,
    ..FIRST
};

#[test]
fn the_devices_of_the_bench_start() {
    let (store, _, _) = bench_start();
    let devices: Vec<Device> = store.devices().collect();
    assert_eq!(devices, [ROOT, FIRST, HUB, SECOND]);
    assert!(ROOT.is_hub() && HUB.is_hub() && !FIRST.is_hub());
    assert!(FIRST.is_configured());
}

#[test]
fn what_stands_on_each_port() {
    let (store, _, _) = bench_start();
    for hub in 0..40 {
        for port in (0..12).chain([u32::MAX]) {
            let expected = match (hub, port) {
                (0, 1) => Some(FIRST),
                (0, 2) => Some(HUB),
                (2, 0) => Some(SECOND),
                _ => None,
            };
            assert_eq!(store.device_on(at(hub, port)), expected, "{hub} {port}");
        }
    }
    assert_eq!(store.device_on(at(u32::MAX, 0)), None);
    assert_eq!(store.device(3), Some(SECOND));
    assert_eq!(store.device(4), None);
    assert_eq!(store.device(32), None);
    assert_eq!(store.device(u32::MAX), None);
}

#[test]
fn the_way_to_the_root_hub() {
    let (store, _, _) = bench_start();
    let route = |place| store.route(place).collect::<Vec<_>>();
    assert_eq!(route(0), []);
    assert_eq!(route(1), [at(0, 1)]);
    assert_eq!(route(3), [at(2, 0), at(0, 2)]);
    assert_eq!(route(4), []);
    assert_eq!(route(u32::MAX), []);
}

/// Port statuses as the bench start's last reads bring them.
#[test]
fn the_statuses_of_the_ports() {
    let (mut store, _, _) = bench_start();
    let status = |status| Some(PortStatus { status, change: 0 });
    for (hub, port, expected) in [
        (0, 0, status(0x100)),
        (0, 1, status(0x103)),
        (0, 2, status(0x503)),
        (0, 3, status(0x100)),
        (0, 4, status(0)),
        (0, 9, status(0)),
        (0, 10, None),
        (0, u32::MAX, None),
        (1, 0, None),
        (2, 0, status(0x103)),
        (2, 1, status(0x100)),
        (4, 0, None),
        (32, 0, None),
    ] {
        let read = store.port_status(at(hub, port));
        assert_eq!(read, expected, "{}", at(hub, port));
        let connected = matches!((hub, port), (0, 1 | 2) | (2, 0));
        assert_eq!(read.is_some_and(|read| read.is_connected()), connected);
    }
    store.as_bytes_mut()[56 + 36..96].copy_from_slice(&[0xfe, 0x34, 0x56, 0x78]);
    let read = store.port_status(at(0, 9)).unwrap();
    assert_eq!((read.status, read.change), (0x34fe, 0x7856));
    assert!(!read.is_connected());
}

#[test]
fn numbers_and_words() {
    for (number, word) in ["high", "full", "low"].into_iter().enumerate() {
        let speed = Speed::from_number(number as u8).unwrap();
        assert_eq!(usize::from(speed.number()), number);
        assert_eq!(speed.to_string(), word);
    }
    let words = ["Attached", "Powered", "Default", "Addressed", "Configured"];
    for (number, word) in words.into_iter().enumerate() {
        let status = Status::from_number(number as u8).unwrap();
        assert_eq!(usize::from(status.number()), number);
        assert_eq!(status.to_string(), word);
    }
    for number in 0..=255 {
        assert_eq!(Speed::from_number(number).is_some(), number < 3);
        assert_eq!(Status::from_number(number).is_some(), number < 5);
    }
    assert_eq!(at(2, 9).to_string(), "hub 2, port 9");
}

/// Place, its byte, the new value: the device is passed over, or not.
#[test]
fn a_place_with_an_unlisted_value_is_passed_over() {
    for (byte, value, kept) in [
        (0, 0, false),
        (0, 2, false),
        (2, 2, true),
        (2, 3, false),
        (3, 0, true),
        (3, 5, false),
        (7, 1, true),
        (7, 3, false),
        (1, 77, true),
    ] {
        let (mut store, _, _) = bench_start();
        store.as_bytes_mut()[1152 + byte] = value;
        let found = store.devices().any(|device| device.place == 1);
        assert_eq!(found, kept, "byte {byte} is {value}");
        assert_eq!(store.devices().count(), if kept { 4 } else { 3 });
    }
}

/// A device stands where a child byte says so, whatever its parent byte is.
#[test]
fn a_child_with_parent_0_stands_on_its_port() {
    let (mut store, _, _) = bench_start();
    store.as_bytes_mut()[3 * 1152 + 6] = 0;
    assert_eq!(store.device(3).unwrap().port, Some(at(2, 0)));
    store.as_bytes_mut()[2 * 1152 + 96] = 0;
    assert_eq!(store.device(3).unwrap().port, None);
}

/// Child bytes count only at a hub.
#[test]
fn a_device_without_hub_data_has_no_children() {
    let (mut store, _, _) = bench_start();
    store.as_bytes_mut()[1152 + 96] = 4;
    assert_eq!(store.device(3), Some(SECOND));
    assert_eq!(store.device_on(at(1, 0)), None);
    store.as_bytes_mut()[1152 + 7] = 1;
    assert_eq!(store.device_on(at(1, 0)).unwrap().place, 3);
}

#[test]
fn the_configuration_value_is_byte_5_of_its_descriptor() {
    let (mut store, _, _) = bench_start();
    store.as_bytes_mut()[1152 + 34 + 5] = 7;
    assert_eq!(store.device(1).unwrap().configuration_value, 7);
}

#[test]
fn the_number_of_ports_is_at_most_10() {
    let (mut store, _, _) = bench_start();
    store.as_bytes_mut()[106] = 255;
    assert_eq!(store.device(0).unwrap().ports, Some(10));
}

fn check(store: &Store) -> usize {
    let devices: Vec<Device> = store.devices().collect();
    assert!(devices.len() <= 32);
    assert!(devices.windows(2).all(|pair| pair[0].place < pair[1].place));
    for device in &devices {
        assert_eq!(u32::from(device.address), device.place + 1);
        assert_eq!(store.device(device.place).as_ref(), Some(device));
        if let Some(port) = device.port {
            assert!(port.hub < device.place && port.port < 10);
            assert_eq!(store.device_on(port).as_ref(), Some(device));
            assert!(store.route(device.place).count() <= 31);
        }
    }
    for hub in 0..33 {
        for port in 0..11 {
            if port == 10 || hub == 32 {
                assert_eq!(store.port_status(at(hub, port)), None);
            }
            if let Some(device) = store.device_on(at(hub, port)) {
                assert_eq!(device.port, Some(at(hub, port)));
            }
        }
    }
    assert!(format!("{store:?}").len() >= 2);
    devices.len()
}

#[test]
fn any_bytes_are_a_store() {
    let mut random = Random(4);
    assert_eq!(check(&Store::EMPTY), 0);
    assert_eq!(check(&Store::from_bytes([0xff; STORE_LENGTH])), 0);
    assert_eq!(check(&Store::from_bytes([1; STORE_LENGTH])), 32);
    let mut store = Store::new();
    let mut found = 0;
    for bound in [2, 3, 4, 6, 34, 256] {
        for _ in 0..40 {
            let bytes = random.bytes(STORE_LENGTH, bound);
            store.as_bytes_mut().copy_from_slice(&bytes);
            found += check(&store);
        }
    }
    assert!(found > 1_000, "{found} devices");
}

#[test]
fn a_damaged_bench_start_is_read() {
    let mut random = Random(5);
    let (sound, _, _) = bench_start();
    for _ in 0..2_000 {
        let mut store = sound.clone();
        for _ in 0..1 + random.below(20) {
            let place = random.below(5) * 1152;
            let byte = place + random.below(140);
            store.as_bytes_mut()[byte] = random.below(256) as u8;
        }
        check(&store);
    }
}
