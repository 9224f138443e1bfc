//! Packages that are made, and what is told of them.
ghost use Rattle.std.specs.Prelude.{◌≡◌, ◌∷◌, [], IfOk, true};
ghost use Rattle.claims.specs.Deps.{AreInOrder, is_ascending};
ghost use Rattle.pkgpath.specs.PkgPath.{without_subpackage};

use crate::records::{build_text, put_record, record_text};
use crate::text::Text;
use claims::{Claim, Dep, Deps};
use faults::Memory;
use package_record::{Build, File, Files, Package, Record, RecordFault, make};
use pkgname::PkgName;
use pkgpath::PkgPath;
use std::alloc::Global;

/// The claim under which member 0 builds.
pub const CLAIM: Claim = Claim {
    round: 1,
    member: 0,
};

/// What is made of one file of so many bytes.
pub fn put_large(bytes: usize, out: &mut Text) {
    match large(out.alloc(), bytes) {
        Ok(record) => put_record(&record, bytes, out),
        Err(fault) => out.put_fault(&fault),
    }
}

fn large(alloc: Global, bytes: usize) -> Result<Record, RecordFault> {
    let files = one_file(alloc, b"x", vec![in alloc; b'a'; bytes]?)?;
    let (path, name) = named(alloc, b"a/b", b"b-1.0")?;
    let none = Deps::new(Vec::new(alloc));
    make(alloc, path, name, 3, CLAIM, none, Vec::new(alloc), files)
}

/// The text of the record of `a/b` that was built on itself, runs with itself, and has an empty
/// file of this name.
pub fn put_full(file: &[u8], out: &mut Text) {
    match full(out.alloc(), file) {
        Ok(record) => {
            let text = record_text(&record, out);
            out.put_digits(text.as_slice());
        }
        Err(fault) => out.put_fault(&fault),
    }
}

fn full(alloc: Global, file: &[u8]) -> Result<Record, RecordFault> {
    let files = one_file(alloc, file, Vec::new(alloc))?;
    let (path, name) = named(alloc, b"a/b", b"b-1.0")?;
    let run = one_path(alloc, b"a/b")?;
    let built = one_dep(alloc, b"a/b", b"b-1.0")?;
    let claim = Claim {
        round: 10,
        member: 8,
    };
    make(alloc, path, name, 65_535, claim, built, run, files)
}

/// The text of the build of `a/b,-x`, with a file of this name that holds `abc`, and of `a/b,-y`,
/// which runs with it.
pub fn put_pair(file: &[u8], out: &mut Text) {
    match pair(out.alloc(), file) {
        Ok(build) => {
            let text = build_text(&build, out);
            out.put_digits(text.as_slice());
        }
        Err(fault) => out.put_fault(&fault),
    }
}

fn pair(alloc: Global, file: &[u8]) -> Result<Build, RecordFault> {
    let front = with_file(
        alloc,
        b"a/b,-x",
        b"x-1",
        file,
        Vec::from_slice(alloc, b"abc")?,
    )?;
    let behind = with_path(alloc, b"a/b,-y", b"y-1", b"a/b,-x")?;
    if !may_stand_so(&front.path, &behind.path)? {
        return Err(RecordFault::Memory);
    }
    let none = Deps::new(Vec::new(alloc));
    Build::make(alloc, 3, CLAIM, none, vec![in alloc; front, behind]?)
}

/// The paths ascend, and are equal without their subpackages.
fn may_stand_so(front: &PkgPath, behind: &PkgPath) -> Result<bool, Memory>
    ensures order { IfOk result (λ so.
        so ≡ true → is_ascending (front.now ∷ behind.now ∷ []) ≡ true) }
    ensures group { IfOk result (λ so.
        so ≡ true → without_subpackage behind.now ≡ without_subpackage front.now) }
{
    let group = front.without_subpackage()?;
    let other = behind.without_subpackage()?;
    Ok(front < behind && other == group)
}

/// The package that has one file.
fn with_file(
    alloc: Global,
    path: &[u8],
    name: &[u8],
    file: &[u8],
    bytes: Vec<u8>,
) -> Result<Package, Memory>
    ensures { IfOk result (λ p. is_ascending p.run.items ≡ true) }
{
    let files = Files::new(one_file(alloc, file, bytes)?);
    let (path, name) = named(alloc, path, name)?;
    Ok(Package {
        path,
        name,
        run: Vec::new(alloc),
        files,
    })
}

/// The package that runs with one path.
fn with_path(alloc: Global, path: &[u8], name: &[u8], run: &[u8]) -> Result<Package, Memory>
    ensures { IfOk result (λ p. is_ascending p.run.items ≡ true) }
{
    let run = one_path(alloc, run)?;
    let (path, name) = named(alloc, path, name)?;
    Ok(Package {
        path,
        name,
        run,
        files: Files::new(Vec::new(alloc)),
    })
}

fn named(alloc: Global, path: &[u8], name: &[u8]) -> Result<(PkgPath, PkgName), Memory> {
    match (PkgPath::parse(alloc, path), PkgName::parse(alloc, name)) {
        (Ok(path), Ok(name)) => Ok((path, name)),
        _ => Err(Memory),
    }
}

fn one_path(alloc: Global, path: &[u8]) -> Result<Vec<PkgPath>, Memory>
    ensures { IfOk result (λ paths. is_ascending paths.items ≡ true) }
{
    match PkgPath::parse(alloc, path) {
        Ok(path) => Ok(vec![in alloc; path]?),
        Err(_) => Err(Memory),
    }
}

/// The dependency on this package, with the digest of 32 times the byte 7.
fn one_dep(alloc: Global, path: &[u8], name: &[u8]) -> Result<Deps, Memory>
    ensures { IfOk result (λ deps. AreInOrder deps) }
{
    let (path, name) = named(alloc, path, name)?;
    let dep = Dep {
        path,
        name,
        digest: [7; 32],
    };
    Ok(Deps::new(vec![in alloc; dep]?))
}

fn one_file(alloc: Global, name: &[u8], bytes: Vec<u8>) -> Result<Vec<File>, Memory> {
    let name = Vec::from_slice(alloc, name)?;
    Ok(vec![in alloc; File { name, bytes }]?)
}

/// The build of `a/b` with one file of so many bytes.
pub fn build_of(alloc: Global, bytes: usize) -> Result<Build, RecordFault> {
    let package = with_file(alloc, b"a/b", b"b-1.0", b"x", vec![in alloc; b'a'; bytes]?)?;
    let none = Deps::new(Vec::new(alloc));
    Build::make(alloc, 3, CLAIM, none, vec![in alloc; package]?)
}
