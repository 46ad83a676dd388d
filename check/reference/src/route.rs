//! Finding the id of the host for an address.

use crate::address::Address;
use crate::net::NetTable;
use crate::settings::Settings;

/// The id for an address: on our net by its host octet, else by the net table.
pub fn find(settings: &Settings, net: &NetTable, address: Address) -> Option<usize> {
    if address.same_net(settings.address) {
        id_on_net(settings, address)
    } else if address.is_above_class_c() {
        None
    } else {
        net.id_of(address.net())
    }
}

/// The id of LOCAL-ADDRESS.
pub fn own_id(settings: &Settings) -> Option<usize> {
    id_on_net(settings, settings.address)
}

fn id_on_net(settings: &Settings, address: Address) -> Option<usize> {
    let id = address.host_octet().checked_sub(settings.address_offset)?;
    let id = usize::from(id);
    (id < settings.nhosts).then_some(id)
}
