//! Notices over UDP, with bytes that Python's hmac, hashlib and struct made.
#![tactic(auto)]

#[cfg(test)]
mod noticed;
