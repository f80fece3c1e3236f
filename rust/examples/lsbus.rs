//! Attaches an empty store with the outcomes of a file, or of standard input,
//! and prints the bus as `lsusb -t` of usbutils 014 does, ports counted from 1:
//!
//!     lsbus [--speed 0|1|2] [FILE]
//!
//! Of each device interface 0 is shown, on which the driver decides. Then come
//! the devices in the order of their addresses, the answer and the number of
//! requests. The exit status is 0 if the answer is OK, else 1.
#![allow(clippy::arithmetic_side_effects)]

use std::env;
use std::fs;
use std::io::{self, Read, Write};
use std::process::ExitCode;

use lidrumak::{root_attach, Device, Reply, Speed, Store};

fn main() -> ExitCode {
    let arguments: Vec<String> = env::args().skip(1).collect();
    match run(&arguments, &mut io::stdin(), &mut io::stdout()) {
        Ok(reply) if reply.answer.is_ok() => ExitCode::SUCCESS,
        Ok(_) => ExitCode::FAILURE,
        Err(error) => {
            eprintln!("lsbus: {error}");
            ExitCode::FAILURE
        }
    }
}

/// The whole program.
pub fn run(
    arguments: &[String],
    input: &mut impl Read,
    output: &mut impl Write,
) -> io::Result<Reply> {
    let (speed, file) = options(arguments)?;
    let mut outcomes = Vec::new();
    match file {
        Some(file) => outcomes = fs::read(file)?,
        None => drop(input.read_to_end(&mut outcomes)?),
    }
    let mut store = Box::new(Store::new());
    // A request takes an outcome of 4 bytes or more, and at most two other
    // actions stand between two requests.
    let mut log = vec![0; (outcomes.len() / 4 + 1) * 64];
    let reply = root_attach(
        Store::EMPTY.as_bytes(),
        store.as_bytes_mut(),
        &outcomes,
        &mut log,
        speed,
    );
    print(&store, reply, output)?;
    Ok(reply)
}

fn options(arguments: &[String]) -> io::Result<(u32, Option<&str>)> {
    let arguments: Vec<&str> = arguments.iter().map(String::as_str).collect();
    let (speed, rest) = match arguments.as_slice() {
        ["--speed", speed, rest @ ..] => (speed.parse().ok(), rest),
        rest => (Some(0), rest),
    };
    match (speed, rest) {
        (Some(speed), []) => Ok((speed, None)),
        (Some(speed), [file]) if !file.starts_with('-') => Ok((speed, Some(file))),
        _ => Err(io::Error::other("usage: lsbus [--speed 0|1|2] [FILE]")),
    }
}

fn print(store: &Store, reply: Reply, output: &mut impl Write) -> io::Result<()> {
    if let Some(root) = store.device(0) {
        writeln!(output, "/:  Bus 01.Port 1: {}", describe_root(&root))?;
        print_children(store, &root, 1, output)?;
    }
    for device in store.devices() {
        writeln!(output, "{}", stand(&device))?;
    }
    writeln!(output, "{}, {} requests", reply.answer, reply.requests)
}

/// The devices on a hub's ports. A child's place is above its hub's.
fn print_children(
    store: &Store,
    hub: &Device,
    depth: usize,
    output: &mut impl Write,
) -> io::Result<()> {
    let mut children: Vec<_> = store
        .devices()
        .filter_map(|device| Some((device.port?, device)))
        .filter(|(at, _)| at.hub == hub.place)
        .collect();
    children.sort_by_key(|(at, _)| *at);
    for (at, child) in children {
        let indent = " ".repeat(4 * depth);
        let line = describe(&child);
        writeln!(output, "{indent}|__ Port {}: {line}", at.port + 1)?;
        print_children(store, &child, depth + 1, output)?;
    }
    Ok(())
}

fn describe_root(root: &Device) -> String {
    let (address, speed) = (root.address, megabits(root.speed));
    let ports = root.ports.unwrap_or(0);
    format!("Dev {address}, Class=root_hub, Driver=lidrumak/{ports}p, {speed}M")
}

fn describe(device: &Device) -> String {
    let (address, speed) = (device.address, megabits(device.speed));
    let class = class(device.class);
    let driver = match device.ports {
        Some(ports) => format!("hub/{ports}p"),
        None => String::new(),
    };
    format!("Dev {address}, If 0, Class={class}, Driver={driver}, {speed}M")
}

fn megabits(speed: Speed) -> &'static str {
    match speed {
        Speed::High => "480",
        Speed::Full => "12",
        Speed::Low => "1.5",
    }
}

/// The names that `lsusb` has for the classes of interfaces.
fn class(class: u8) -> &'static str {
    match class {
        0 => "(Defined at Interface level)",
        1 => "Audio",
        2 => "Communications",
        3 => "Human Interface Device",
        5 => "Physical Interface Device",
        6 => "Imaging",
        7 => "Printer",
        8 => "Mass Storage",
        9 => "Hub",
        10 => "CDC Data",
        11 => "Chip/SmartCard",
        13 => "Content Security",
        14 => "Video",
        15 => "Personal Healthcare",
        0xdc => "Diagnostic",
        0xe0 => "Wireless",
        0xef => "Miscellaneous Device",
        0xfe => "Application Specific Interface",
        0xff => "Vendor Specific Class",
        _ => "[unknown]",
    }
}

fn stand(device: &Device) -> String {
    let place = match device.port {
        Some(at) => format!("port {} of Dev {}", at.port + 1, at.hub + 1),
        None => "the root hub".to_string(),
    };
    let Device {
        address,
        vendor,
        product,
        status,
        ..
    } = device;
    format!("Dev {address}: ID {vendor:04x}:{product:04x}, {place}, {status}")
}
