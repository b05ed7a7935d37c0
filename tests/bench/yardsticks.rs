//! SHA-256, HMAC and sealed files in C, and with OpenSSL where the program is compiled with `--cfg openssl`.

use crate::library::{Digest, Written};
use crate::Version;

/// What writes a digest of 32 bytes, as a version.
fn version<'a>(write: impl Fn(*mut u8) + 'a) -> Version<'a, Digest> {
    Box::new(move || {
        let mut digest = Digest { refusal: 0, bytes: [0; 32] };
        write(digest.bytes.as_mut_ptr());
        digest
    })
}

extern "C" {
    fn c_sha256(message: *const u8, length: usize, digest: *mut u8);
    fn c_hmac_sha256(key: *const u8, key_length: usize, message: *const u8, length: usize, digest: *mut u8);
}

pub fn sha256(message: &[u8]) -> Vec<Version<'_, Digest>> {
    let c = version(|digest| unsafe { c_sha256(message.as_ptr(), message.len(), digest) });
    [c].into_iter().chain(openssl::sha256(message)).collect()
}

pub fn hmac_sha256<'a>(key: &'a [u8], message: &'a [u8]) -> Vec<Version<'a, Digest>> {
    let c = version(|digest| unsafe {
        c_hmac_sha256(key.as_ptr(), key.len(), message.as_ptr(), message.len(), digest)
    });
    [c].into_iter().chain(openssl::hmac_sha256(key, message)).collect()
}

/// What C and OpenSSL seal with: the secret from which one HMAC makes the label's key, and what is written.
#[derive(Clone, Copy)]
pub struct Sealing<'a> {
    pub secret: &'a [u8; 32],
    pub name: &'a [u8; 8],
    pub nonce: &'a [u8; 12],
    pub text: &'a [u8],
}

extern "C" {
    fn c_seal(secret: *const u8, name: *const u8, nonce: *const u8, text: *const u8, length: usize, out: *mut u8);
    fn c_open(secret: *const u8, file: *const u8, length: usize, out: *mut u8) -> std::ffi::c_int;
}

fn accepted(length: usize) -> Written {
    Written { refusal: 0, zeros: [0; 7], length }
}

/// Each into a buffer of its own, which has room.
pub fn seal<'a>(with: Sealing<'a>, c: &'a mut [u8], openssl: &'a mut [u8]) -> Vec<Version<'a, Written>> {
    let Sealing { secret, name, nonce, text } = with;
    let (secret, name, nonce) = (secret.as_ptr(), name.as_ptr(), nonce.as_ptr());
    let in_c: Version<'a, Written> = Box::new(move || {
        unsafe { c_seal(secret, name, nonce, text.as_ptr(), text.len(), c.as_mut_ptr()) }
        accepted(38 + text.len())
    });
    [in_c].into_iter().chain(openssl::seal(with, openssl)).collect()
}

pub fn open<'a>(
    secret: &'a [u8; 32],
    file: &'a [u8],
    c: &'a mut [u8],
    openssl: &'a mut [u8],
) -> Vec<Version<'a, Written>> {
    let in_c: Version<'a, Written> = Box::new(move || {
        let right = unsafe { c_open(secret.as_ptr(), file.as_ptr(), file.len(), c.as_mut_ptr()) };
        accepted((file.len() - 38) * right as usize)
    });
    [in_c].into_iter().chain(openssl::open(secret, file, openssl)).collect()
}

#[cfg(openssl)]
mod openssl {
    use super::{accepted, version, Digest, Sealing, Version, Written};
    use std::ffi::{c_int, c_void};
    use std::ptr::{null, null_mut};

    extern "C" {
        fn EVP_sha256() -> *const c_void;
        fn EVP_Digest(
            data: *const u8,
            count: usize,
            digest: *mut u8,
            size: *mut u32,
            kind: *const c_void,
            engine: *const c_void,
        ) -> c_int;
        fn HMAC(
            kind: *const c_void,
            key: *const u8,
            key_length: c_int,
            data: *const u8,
            count: usize,
            digest: *mut u8,
            size: *mut u32,
        ) -> *mut u8;
    }

    type Context = *mut c_void;

    /// Of <openssl/evp.h>.
    const GET_TAG: c_int = 0x10;
    const SET_TAG: c_int = 0x11;

    extern "C" {
        fn EVP_chacha20_poly1305() -> *const c_void;
        fn EVP_CIPHER_CTX_new() -> Context;
        fn EVP_CIPHER_CTX_free(context: Context);
        fn EVP_CIPHER_CTX_ctrl(context: Context, what: c_int, length: c_int, tag: *mut u8) -> c_int;
        fn EVP_CipherInit_ex(
            context: Context,
            kind: *const c_void,
            engine: *const c_void,
            key: *const u8,
            nonce: *const u8,
            encrypt: c_int,
        ) -> c_int;
        fn EVP_CipherUpdate(
            context: Context,
            out: *mut u8,
            count: *mut c_int,
            data: *const u8,
            length: c_int,
        ) -> c_int;
        fn EVP_CipherFinal_ex(context: Context, out: *mut u8, count: *mut c_int) -> c_int;
    }

    /// A call of the cipher on 10 bytes of additional data: whether it said yes. The tag is given when it decrypts.
    unsafe fn ciphered(
        encrypt: bool,
        secret: *const u8,
        [name, nonce, aad]: [*const u8; 3],
        text: &[u8],
        out: *mut u8,
        tag: *mut u8,
    ) -> bool {
        let (mut key, mut count, length) = ([0; 32], 0, text.len() as c_int);
        HMAC(EVP_sha256(), secret, 32, name, 8, key.as_mut_ptr(), null_mut());
        let context = EVP_CIPHER_CTX_new();
        EVP_CipherInit_ex(context, EVP_chacha20_poly1305(), null(), key.as_ptr(), nonce, encrypt as c_int);
        if !encrypt {
            EVP_CIPHER_CTX_ctrl(context, SET_TAG, 16, tag);
        }
        EVP_CipherUpdate(context, null_mut(), &mut count, aad, 10);
        EVP_CipherUpdate(context, out, &mut count, text.as_ptr(), length);
        let right = EVP_CipherFinal_ex(context, out, &mut count) == 1;
        if encrypt {
            EVP_CIPHER_CTX_ctrl(context, GET_TAG, 16, tag);
        }
        EVP_CIPHER_CTX_free(context);
        right
    }

    pub fn seal<'a>(with: Sealing<'a>, out: &'a mut [u8]) -> Option<Version<'a, Written>> {
        let Sealing { secret, name, nonce, text } = with;
        Some(Box::new(move || {
            out[..2].copy_from_slice(b"SM");
            out[2..10].copy_from_slice(name);
            out[10..22].copy_from_slice(nonce);
            let (aad, rest) = (out.as_ptr(), out[22..].as_mut_ptr());
            let given = [name.as_ptr(), nonce.as_ptr(), aad];
            unsafe { ciphered(true, secret.as_ptr(), given, text, rest, rest.add(text.len())) };
            accepted(38 + text.len())
        }))
    }

    pub fn open<'a>(secret: &'a [u8; 32], file: &'a [u8], out: &'a mut [u8]) -> Option<Version<'a, Written>> {
        Some(Box::new(move || {
            let (text, tag) = file[22..].split_at(file.len() - 38);
            let (given, mut tag) = ([&file[2..], &file[10..], file].map(<[u8]>::as_ptr), tag.to_owned());
            let right = unsafe { ciphered(false, secret.as_ptr(), given, text, out.as_mut_ptr(), tag.as_mut_ptr()) };
            accepted(text.len() * right as usize)
        }))
    }

    pub fn sha256(message: &[u8]) -> Option<Version<'_, Digest>> {
        let (data, count) = (message.as_ptr(), message.len());
        Some(version(move |digest| unsafe {
            EVP_Digest(data, count, digest, null_mut(), EVP_sha256(), null());
        }))
    }

    pub fn hmac_sha256<'a>(key: &'a [u8], message: &'a [u8]) -> Option<Version<'a, Digest>> {
        Some(version(|digest| unsafe {
            let (key, key_length) = (key.as_ptr(), key.len() as c_int);
            HMAC(EVP_sha256(), key, key_length, message.as_ptr(), message.len(), digest, null_mut());
        }))
    }
}

#[cfg(not(openssl))]
mod openssl {
    use super::{Digest, Sealing, Version, Written};

    pub fn seal<'a>(_: Sealing<'a>, _: &'a mut [u8]) -> Option<Version<'a, Written>> {
        None
    }

    pub fn open<'a>(_: &'a [u8; 32], _: &'a [u8], _: &'a mut [u8]) -> Option<Version<'a, Written>> {
        None
    }

    pub fn sha256(_: &[u8]) -> Option<Version<'_, Digest>> {
        None
    }

    pub fn hmac_sha256<'a>(_: &'a [u8], _: &'a [u8]) -> Option<Version<'a, Digest>> {
        None
    }
}
