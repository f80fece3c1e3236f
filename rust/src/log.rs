//! The actions that a call logged.

use core::iter::FusedIterator;

use crate::Speed;

/// The bytes of an action.
pub const ACTION_LENGTH: usize = 16;

/// Which way a request's data goes.
#[derive(Debug, Clone, Copy, PartialEq, Eq, Hash)]
pub enum Direction {
    /// To the device.
    Out,
    /// To the host.
    In,
}

/// A control request on endpoint 0.
#[derive(Debug, Clone, Copy, PartialEq, Eq, Hash)]
pub struct Request {
    /// The device's address; 0 before it is addressed.
    pub address: u8,
    /// Which way the data goes.
    pub direction: Direction,
    /// The device's speed.
    pub speed: Speed,
    /// The packet size of endpoint 0 in bytes: 8, 16, 32 or 64.
    pub packet_size: u8,
    /// The setup bytes (USB 2.0 table 9-2).
    pub setup: [u8; 8],
}

impl Request {
    /// bmRequestType.
    pub const fn request_type(&self) -> u8 {
        self.setup[0]
    }

    /// bRequest.
    pub const fn request(&self) -> u8 {
        self.setup[1]
    }

    /// wValue.
    pub const fn value(&self) -> u16 {
        u16::from_le_bytes([self.setup[2], self.setup[3]])
    }

    /// wIndex: for a hub's port, counted from 1.
    pub const fn index(&self) -> u16 {
        u16::from_le_bytes([self.setup[4], self.setup[5]])
    }

    /// wLength: how many data bytes are asked for.
    pub const fn length(&self) -> u16 {
        u16::from_le_bytes([self.setup[6], self.setup[7]])
    }
}

/// What the caller of the driver has to do.
#[derive(Debug, Clone, Copy, PartialEq, Eq, Hash)]
pub enum Action {
    /// Run this control transfer; its outcome is the next one taken.
    Request(Request),
    /// Wait.
    Wait {
        /// How long, in microseconds.
        microseconds: u32,
    },
    /// `DwcUpdateHostFrameInterval`.
    FrameInterval,
}

impl Action {
    /// The action of these bytes, or `None` if the driver writes no such bytes.
    pub const fn from_bytes(bytes: &[u8; ACTION_LENGTH]) -> Option<Action> {
        match *bytes {
            [1, address, direction, speed, packet_size, 0, 0, 0, ref setup @ ..] => {
                request(address, direction, speed, packet_size, *setup)
            }
            [2, 0, 0, 0, 0, 0, 0, 0, a, b, c, d, 0, 0, 0, 0] => Some(Action::Wait {
                microseconds: u32::from_le_bytes([a, b, c, d]),
            }),
            [3, 0, 0, 0, 0, 0, 0, 0, 0, 0, 0, 0, 0, 0, 0, 0] => Some(Action::FrameInterval),
            _ => None,
        }
    }

    /// The request, if it is one.
    pub const fn request(self) -> Option<Request> {
        match self {
            Action::Request(request) => Some(request),
            _ => None,
        }
    }
}

const fn request(
    address: u8,
    direction: u8,
    speed: u8,
    packet_size: u8,
    setup: [u8; 8],
) -> Option<Action> {
    let direction = match direction {
        0 => Direction::Out,
        1 => Direction::In,
        _ => return None,
    };
    let Some(speed) = Speed::from_number(speed) else {
        return None;
    };
    let packet_size = match packet_size {
        0 => 8,
        1 => 16,
        2 => 32,
        3 => 64,
        _ => return None,
    };
    Some(Action::Request(Request {
        address,
        direction,
        speed,
        packet_size,
        setup,
    }))
}

/// An iterator over a log's actions. It ends at the first 16 bytes that are no
/// action, so a log of zeros lent to a call shows that call's actions and no
/// others.
///
/// ```
/// use lidrumak::{root_attach, Action, Actions, Answer, Direction, Store};
///
/// let mut new = Store::new();
/// let mut log = [0; 64];
/// let reply = root_attach(Store::EMPTY.as_bytes(), new.as_bytes_mut(), &[], &mut log, 0);
/// assert_eq!((reply.answer, reply.requests), (Answer::OutcomesSpent, 1));
///
/// let mut actions = Actions::new(&log);
/// let Some(Action::Request(request)) = actions.next() else { panic!() };
/// assert_eq!((request.address, request.direction), (0, Direction::In));
/// assert_eq!(request.setup, [0x80, 6, 0, 1, 0, 0, 18, 0]); // the device descriptor
/// assert_eq!(actions.next(), None);
/// ```
#[derive(Debug, Clone)]
pub struct Actions<'a> {
    rest: &'a [u8],
}

impl<'a> Actions<'a> {
    /// The actions at the start of these bytes.
    pub const fn new(bytes: &'a [u8]) -> Actions<'a> {
        Actions { rest: bytes }
    }
}

impl Iterator for Actions<'_> {
    type Item = Action;

    fn next(&mut self) -> Option<Action> {
        let parts = self.rest.split_first_chunk();
        let read = parts.and_then(|(bytes, rest)| Some((Action::from_bytes(bytes)?, rest)));
        let (action, rest) = match read {
            Some((action, rest)) => (Some(action), rest),
            None => (None, &[][..]),
        };
        self.rest = rest;
        action
    }
}

impl FusedIterator for Actions<'_> {}
