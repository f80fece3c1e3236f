//! The module tree that the original's files name. The files are included as
//! they stand; beside a file stand public wrappers for its private functions.
#![allow(warnings)]

pub mod system_timer {
    pub use crate::stand_ins::micro_delay;
}

pub mod usb {
    pub use self::usbd::device::*;
    pub use crate::stand_ins::DwcUpdateHostFrameInterval;

    pub mod configuration {
        pub use crate::never_reached::ConfigurationLoad;
    }

    pub mod types {
        include!(concat!(env!("REFERENCE_USB"), "/types.rs"));
    }

    pub mod device {
        pub mod hub {
            include!(concat!(env!("REFERENCE_USB"), "/device/hub.rs"));

            pub const SOURCE: &str = include_str!(concat!(env!("REFERENCE_USB"), "/device/hub.rs"));

            pub fn hub_check_for_change(device: &mut UsbDevice) {
                HubCheckForChange(device)
            }

            pub fn hub_check_connection(device: &mut UsbDevice, port: u8) -> ResultCode {
                HubCheckConnection(device, port)
            }

            pub fn hub_child_reset(device: &mut UsbDevice, child: &mut UsbDevice) -> ResultCode {
                HubChildReset(device, child)
            }

            pub fn hub_check_connection_device(
                device: &mut UsbDevice,
                child: &mut UsbDevice,
            ) -> ResultCode {
                HubCheckConnectionDevice(device, child)
            }

            pub fn hub_port_reset(device: &mut UsbDevice, port: u8) -> ResultCode {
                HubPortReset(device, port)
            }

            pub fn hub_port_connection_changed(device: &mut UsbDevice, port: u8) -> ResultCode {
                HubPortConnectionChanged(device, port)
            }

            /// The callbacks that `HubAttach` sets.
            pub fn set_hub_callbacks(device: &mut UsbDevice) {
                device.device_check_for_change = Some(HubCheckForChange);
                device.device_child_reset = Some(HubChildReset);
                device.device_check_connection = Some(HubCheckConnectionDevice);
            }
        }
    }

    pub mod hcd {
        pub mod hub {
            include!(concat!(env!("REFERENCE_USB"), "/hcd/hub.rs"));
        }

        pub mod dwc {
            pub mod dwc_otg {
                pub use crate::never_reached::dwc::*;
                pub use crate::stand_ins::{
                    dwc_hub, printDWCErrors, read_volatile, HcdSubmitControlMessage,
                };
            }

            pub mod dwc_otgreg {
                pub use crate::stand_ins::DOTG_HPRT;
            }

            pub mod roothub {
                pub use crate::stand_ins::memory_copy;
            }
        }
    }

    pub mod usbd {
        pub mod descriptors {
            include!(concat!(env!("REFERENCE_USB"), "/usbd/descriptors.rs"));
        }

        pub mod device {
            include!(concat!(env!("REFERENCE_USB"), "/usbd/device.rs"));
        }

        pub mod pipe {
            include!(concat!(env!("REFERENCE_USB"), "/usbd/pipe.rs"));
        }

        pub mod request {
            include!(concat!(env!("REFERENCE_USB"), "/usbd/request.rs"));
        }

        pub mod endpoint {
            pub use crate::never_reached::endpoint::*;
        }

        pub mod transfer {
            pub use crate::never_reached::transfer::*;
        }

        pub mod usbd {
            include!(concat!(env!("REFERENCE_USB"), "/usbd/usbd.rs"));

            pub const SOURCE: &str = include_str!(concat!(env!("REFERENCE_USB"), "/usbd/usbd.rs"));

            pub fn usb_attach_root_hub(bus: &mut UsbBus) -> ResultCode {
                UsbAttachRootHub(bus)
            }

            pub fn usb_configure(device: &mut UsbDevice, configuration: u8) -> ResultCode {
                UsbConfigure(device, configuration)
            }
        }
    }
}
