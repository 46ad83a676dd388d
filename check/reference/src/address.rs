//! Internet addresses and their classes.

#[derive(Clone, Copy, Debug, Default, PartialEq, Eq)]
pub struct Address(pub [u8; 4]);

impl Address {
    pub const ZERO: Address = Address([0; 4]);

    pub fn is_class_a(self) -> bool {
        self.0[0] < 128
    }

    pub fn is_above_class_c(self) -> bool {
        self.0[0] >= 224
    }

    /// Whether both are on one net (or subnet). Equal first octets make equal
    /// classes, so one class decides which octets count.
    pub fn same_net(self, other: Address) -> bool {
        let [a, b, c, d] = self.0;
        let [e, f, g, h] = other.0;
        if self.is_class_a() {
            (a, b, d) == (e, f, h)
        } else {
            (a, b, c) == (e, f, g)
        }
    }

    /// The octet that names a host on its net.
    pub fn host_octet(self) -> u8 {
        if self.is_class_a() {
            self.0[2]
        } else {
            self.0[3]
        }
    }

    /// The net as the net table writes it.
    pub fn net(self) -> [u8; 3] {
        let [a, b, c, _] = self.0;
        if self.is_class_a() {
            [a, 0, 0]
        } else {
            [a, b, c]
        }
    }
}
