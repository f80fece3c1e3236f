//! Random outcomes for requests, where no history of the reference gives them:
//! behind the end of the comparison, and where the original's files are
//! missing.

use reference::generator::descriptors;
use reference::generator::prng::Prng;
use reference::layout::ACTION;
use reference::script::Script;

/// Devices that answer without knowing which of them is asked.
pub struct Devices {
    prng: Prng,
    /// odd descriptors, in a thousand
    odd: usize,
    /// failing requests, in a thousand
    failures: usize,
    /// port statuses that show a device, in a thousand
    connected: usize,
    /// the last configuration and hub descriptor that were asked for in part
    configuration: Vec<u8>,
    hub: Vec<u8>,
}

impl Devices {
    pub fn new(mut prng: Prng) -> Devices {
        Devices {
            odd: prng.pick(&[0, 0, 20, 100]),
            failures: prng.pick(&[0, 5, 30, 200]),
            connected: prng.pick(&[50, 200, 500]),
            configuration: Vec::new(),
            hub: Vec::new(),
            prng,
        }
    }

    /// Adds the outcome of one request.
    pub fn add(&mut self, action: &[u8], outcomes: &mut Vec<u8>) {
        let asked = usize::from(u16::from_le_bytes([action[14], action[15]]));
        let mut data = self.data(&action[8..ACTION], asked);
        data.truncate(asked);
        let (mut code, mut error) = (0, 0);
        if self.prng.chance(self.failures) {
            match self.prng.below(8) {
                0..=2 => code = self.prng.range(1, 9) as u8,
                3..=5 => error = self.prng.pick(&[1, 2, 3, 4, 5, 6, 7, 8, 9, 31]),
                6 => data.truncate(self.prng.below(data.len() + 1)),
                _ => code = self.prng.pick(&[0, 0, 0, 10, 255]),
            }
        }
        outcomes.extend(Script::new().outcome(code, error, &data).0);
    }

    fn data(&mut self, setup: &[u8], asked: usize) -> Vec<u8> {
        let is_hub = self.prng.chance(500);
        match (setup[0], setup[1], setup[3]) {
            (0x80, 6, 1) => descriptors::device(&mut self.prng, is_hub, self.odd),
            (0x80, 6, _) => {
                if asked == 9 && is_hub {
                    self.configuration = descriptors::hub_configuration(&mut self.prng, self.odd);
                } else if asked == 9 {
                    self.configuration = descriptors::any_configuration(&mut self.prng, self.odd);
                }
                self.configuration.clone()
            }
            (0xa0, 6, _) => {
                if asked == 2 {
                    let ports = self.prng.pick(&[0, 1, 1, 2, 2, 3, 4, 10, 11]);
                    self.hub = descriptors::hub(&mut self.prng, ports, self.odd);
                }
                self.hub.clone()
            }
            (0xa0, 0, _) => vec![1, 0, 0, 0],
            (0xa3, 0, _) => self.port_status(),
            _ => Vec::new(),
        }
    }

    fn port_status(&mut self) -> Vec<u8> {
        let (status, change) = match self.prng.chance(self.connected) {
            true => (
                self.prng.pick(&[0x101, 0x103, 0x303, 0x503, 0x107]),
                self.prng.pick(&[0, 1, 1, 0x10, 0x10, 0x11, 3]),
            ),
            false => (
                self.prng.pick(&[0x100, 0x100, 0x102, 0x104]),
                self.prng.pick(&[0, 0, 0x10, 0x10, 8, 0x1b]),
            ),
        };
        let word: u32 = status | change << 16;
        word.to_le_bytes().to_vec()
    }
}

#[cfg(have_original)]
impl reference::stand_ins::Answers for Devices {
    fn answer(&mut self, action: &[u8; ACTION], outcomes: &mut Vec<u8>) {
        self.add(action, outcomes);
    }
}
