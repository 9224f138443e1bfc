//! A run of three members. Expected values come from Python's `hmac`.
use seals::{Seal, fingerprint, key_of_text, text_of_key};
use std::test::Fail;

#[test]
fn a_run(rt: HostRuntime) -> Result<(), Fail> {
    let key = key_of_text(&text_of_key(&[7; 32])).ok_or("no key")?;
    let shown = hex::encode(rt.alloc(), fingerprint(&key))?;
    assert_eq!(rt; shown.as_str(), "1e099bc1f087d3368d85354d89698741");
    let seal = Seal::of_run(&key, &[9; 32], &[3, 1, 1]);
    let mut bytes = Vec::from_slice(rt.alloc(), b"text")?;
    seal.put_on(&mut bytes)?;
    let digits = hex::encode(rt.alloc(), bytes.as_slice())?;
    let expected = "74657874d0695731b8d6bd26e7a964a4c47fd5b0f6227a44f4fba055ca12d216782b0216";
    assert_eq!(rt; digits.as_str(), expected);
    assert!(rt; seal.opened(bytes.as_slice()) == Some(b"text".as_slice()));
    let other = Seal::of_run(&key, &[9; 32], &[1, 1, 3]);
    assert!(rt; other.opened(bytes.as_slice()).is_none());
    bytes.truncate(31);
    assert!(rt; seal.opened(bytes.as_slice()).is_none());
    Ok(())
}
