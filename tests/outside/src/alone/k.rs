//! K's fields in both forms and a few more, in hexadecimal as the papers write them.

/// Fields of the older form.
pub mod older {
    pub const HEADER: &str = "01 0008 000003E8 000F4240";
    pub const PORT_1: &str = "02 0008 0001 00000064 0000";
    pub const PORT_2: &str = "02 0008 0002 00000064 0000";
    pub const FLOW_1: &str = "03 000C 0001 000186A0 0001 00E6 0001";
    pub const FLOW_2: &str = "03 000C 0002 0001ADB0 0001 025D 0001";
    pub const FLOW_256: &str = "03 000C 0100 0001ADB0 0001 025D 0001";
    pub const EXTRA_1: &str = "04 0004 0001 0020";
    pub const EXTRA_2: &str = "04 0004 0002 0001";
    pub const JITTER_1: &str = "05 0006 0001 00007530";
    pub const JITTER_2: &str = "05 0006 0002 00989680";
    pub const CLOCKS: &str = "06 000C 00000064 00000002 000003E8";
    pub const K: &[&str] = &[HEADER, PORT_1, FLOW_1, FLOW_2];
}

/// Fields of the newer form.
pub mod newer {
    pub const HEADER: &str = "11 0014 000003E8 000F4240 00000000 00000000 00000000";
    pub const CLOCKED: &str = "11 0014 000003E8 000F4240 00000064 00000002 000003E8";
    pub const PORT_1: &str = "12 000A 0001 00000064 0000 0000";
    pub const PORT_1_EXTRA: &str = "12 000A 0001 00000064 0000 0020";
    pub const PORT_2: &str = "12 000A 0002 00000064 0000 0000";
    pub const FLOW_1: &str = "13 0010 0001 000186A0 0001 00E6 00000000 0001";
    pub const FLOW_1_LATE: &str = "13 0010 0001 000186A0 0001 00E6 00007530 0001";
    pub const FLOW_2: &str = "13 0010 0002 0001ADB0 0001 025D 00000000 0001";
    pub const FLOW_2_LATE: &str = "13 0010 0002 0001ADB0 0001 025D 00989680 0001";
    pub const FLOW_256: &str = "13 0010 0100 0001ADB0 0001 025D 00000000 0001";
    /// Flow 0, out of range.
    pub const FLOW_0: &str = "13 0010 0000 000186A0 0001 00E6 00000000 0001";
    /// Flow 1 over port 1 and port 1.
    pub const TWICE: &str = "13 0012 0001 000186A0 0001 00E6 00000000 0001 0001";
    pub const K: &[&str] = &[HEADER, PORT_1, FLOW_1, FLOW_2];
}

/// The bytes of some fields, one after the other.
pub fn bytes(fields: &[&str]) -> Vec<u8> {
    let digits: Vec<u32> = fields.concat().chars().filter_map(|digit| digit.to_digit(16)).collect();
    digits.chunks(2).map(|pair| (16 * pair[0] + pair[1]) as u8).collect()
}

/// K in a form, with more fields behind it.
pub fn k_and(k: &[&'static str], more: &[&'static str]) -> Vec<&'static str> {
    [k, more].concat()
}
