//! What else reads the formats of formats.rs: goblin and object, and libpcap.

#[cfg(any(programs, captures))]
use crate::formats::side_of;
use crate::rows::Side;

/// goblin and object over a table of symbols, whose values are added up. The second casts the bytes.
#[cfg(programs)]
pub fn readers_of_symbols(bytes: &'static [u8]) -> Vec<(&'static str, Side)> {
    use peer_crates::goblin::container::{Container, Ctx, Endian};
    use peer_crates::goblin::elf::sym::{sym64::SIZEOF_SYM, Symtab};
    use peer_crates::object::elf::Sym64;
    use peer_crates::object::pod::slice_from_bytes;
    use peer_crates::object::LittleEndian;
    let goblin = |front: &'static [u8]| {
        let ctx = Ctx::new(Container::Big, Endian::Little);
        let symbols = Symtab::parse(front, 0, front.len() / SIZEOF_SYM, ctx).unwrap();
        let values = symbols.iter().map(|it| it.st_value as usize);
        values.fold(0, usize::wrapping_add)
    };
    let object = |front: &'static [u8]| {
        let count = front.len() / SIZEOF_SYM;
        let (symbols, _) = slice_from_bytes::<Sym64<LittleEndian>>(front, count).unwrap();
        let values = symbols.iter().map(|it| it.st_value.get(LittleEndian) as usize);
        values.fold(0, usize::wrapping_add)
    };
    vec![
        ("goblin", side_of(bytes, goblin)),
        ("object, cast", side_of(bytes, object)),
    ]
}

#[cfg(not(programs))]
pub fn readers_of_symbols(_bytes: &'static [u8]) -> Vec<(&'static str, Side)> {
    Vec::new()
}

/// libpcap over a stream of C that reads the bytes, whose packets it lends.
#[cfg(captures)]
pub fn readers_of_packets(bytes: &'static [u8]) -> Vec<(&'static str, Side)> {
    use std::ffi::{c_char, c_int, c_void};
    use std::ptr::null_mut;

    /// What `pcap_next_ex` tells of a packet: `struct pcap_pkthdr`.
    #[repr(C)]
    struct Told {
        time: [i64; 2],
        captured: u32,
        original: u32,
    }

    #[link(name = "pcap")]
    extern "C" {
        fn fmemopen(buffer: *mut c_void, size: usize, mode: *const c_char) -> *mut c_void;
        fn pcap_fopen_offline(file: *mut c_void, error: *mut c_char) -> *mut c_void;
        fn pcap_next_ex(of: *mut c_void, told: *mut *mut Told, data: *mut *const u8) -> c_int;
        fn pcap_close(of: *mut c_void);
    }

    let walk = |front: &'static [u8]| unsafe {
        let mut error = [0; 256];
        let file = fmemopen(front.as_ptr() as *mut _, front.len(), b"r\0".as_ptr().cast());
        let capture = pcap_fopen_offline(file, error.as_mut_ptr());
        assert!(!capture.is_null());
        let (mut told, mut data, mut sum) = (null_mut(), std::ptr::null(), 0);
        while pcap_next_ex(capture, &mut told, &mut data) == 1 {
            sum += (*told).captured as usize;
        }
        pcap_close(capture);
        sum
    };
    vec![("libpcap", side_of(bytes, walk))]
}

#[cfg(not(captures))]
pub fn readers_of_packets(_bytes: &'static [u8]) -> Vec<(&'static str, Side)> {
    Vec::new()
}
