//! Calls the library as a program in Rust does: a vector of the AEGIS specification, and back.
use std::process::exit;

unsafe extern "C" {
    fn aegis128l_encrypt_detached(
        c: *mut u8, c_len: usize, mac: *mut u8, mac_len: usize, m: *const u8, m_len: usize,
        ad: *const u8, ad_len: usize, npub: *const u8, npub_len: usize, k: *const u8, k_len: usize,
    ) -> i32;
    fn aegis128l_decrypt_detached_in_place(
        mc: *mut u8, mc_len: usize, mac: *const u8, mac_len: usize,
        ad: *const u8, ad_len: usize, npub: *const u8, npub_len: usize, k: *const u8, k_len: usize,
    ) -> i32;
}

const CIPHER_TEXT: [u8; 16] = *b"\xc1\xc0\xe5\x8b\xd9\x13\x00\x6f\xeb\xa0\x0f\x4b\x3c\xc3\x59\x4e";
const TAG: [u8; 16] = *b"\xab\xe0\xec\xe8\x0c\x24\x86\x8a\x22\x6a\x35\xd1\x6b\xda\xe3\x7a";

fn seal(key: &[u8], nonce: &[u8], m: &[u8], c: &mut [u8], tag: &mut [u8]) -> i32 {
    // a slice of Rust is what the library asks for: not null, of its length, and written by nobody else
    unsafe {
        aegis128l_encrypt_detached(
            c.as_mut_ptr(), c.len(), tag.as_mut_ptr(), tag.len(), m.as_ptr(), m.len(),
            [].as_ptr(), 0, nonce.as_ptr(), nonce.len(), key.as_ptr(), key.len(),
        )
    }
}

fn open(key: &[u8], nonce: &[u8], mc: &mut [u8], tag: &[u8]) -> i32 {
    unsafe {
        aegis128l_decrypt_detached_in_place(
            mc.as_mut_ptr(), mc.len(), tag.as_ptr(), tag.len(),
            [].as_ptr(), 0, nonce.as_ptr(), nonce.len(), key.as_ptr(), key.len(),
        )
    }
}

fn main() {
    let (mut key, mut nonce) = ([0u8; 16], [0u8; 16]);
    (key[0], key[1], nonce[0], nonce[2]) = (0x10, 0x01, 0x10, 0x02);
    let (mut c, mut tag) = ([9u8; 16], [9u8; 16]);
    let sealed = seal(&key, &nonce, &[0; 16], &mut c, &mut tag) == 1 && c == CIPHER_TEXT && tag == TAG;
    let opened = open(&key, &nonce, &mut c, &tag) == 1 && c == [0; 16];
    let refused = open(&key, &nonce, &mut c, &tag) == 0 && c == [0xaa; 16];
    let misfit = seal(&key[..15], &nonce, &[0; 16], &mut c, &mut tag) == -1 && c == [0xaa; 16] && tag == TAG;
    println!("Rust: sealed {sealed}, opened {opened}, refused {refused}, a wrong length {misfit}");
    exit(!(sealed && opened && refused && misfit) as i32);
}
