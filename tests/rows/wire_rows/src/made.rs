//! Builds of tests, and their texts.
use claims::{Claim, Dep, Deps};
use package_record::{Build, File, Files, Package};
use pkgname::PkgName;
use pkgpath::PkgPath;
use std::alloc::Global;
use std::test::Fail;

/// What a build says.
#[derive(Clone, Copy, Debug)]
pub struct Made {
    pub host: u16,
    pub claim: Claim,
    /// The name of each of its packages.
    pub name: &'static str,
    /// The packages' paths, ascending.
    pub paths: &'static [&'static str],
    /// How many packages it was built on.
    pub built: u32,
    /// How many paths each package needs to run.
    pub run: u32,
    /// How many bytes each file of a package has.
    pub files: &'static [usize],
}

/// The unit of all builds here.
pub static UNIT: &str = "a/b";

/// A build of one package with a file of three bytes.
pub static PLAIN: Made = Made {
    host: 3,
    claim: Claim {
        round: 10,
        member: 2,
    },
    name: "b-1.0",
    paths: &["a/b"],
    built: 0,
    run: 0,
    files: &[3],
};

fn built(alloc: Global, count: u32) -> Result<Deps, Fail> {
    let mut deps = Vec::new(alloc);
    for number in 0..count {
        let path = format!(in alloc; "d/p{}", 1_000 + number)?;
        let name = format!(in alloc; "p{}-2.0", number)?;
        deps.push(Dep {
            path: PkgPath::parse(alloc, path.as_bytes())?,
            name: PkgName::parse(alloc, name.as_bytes())?,
            digest: [(number % 256) as u8; 32],
        })?;
    }
    Ok(Deps::new(deps))
}

fn run(alloc: Global, count: u32) -> Result<Vec<PkgPath>, Fail> {
    let mut paths = Vec::new(alloc);
    for number in 0..count {
        let path = format!(in alloc; "r/p{}", 1_000 + number)?;
        paths.push(PkgPath::parse(alloc, path.as_bytes())?)?;
    }
    Ok(paths)
}

fn files(alloc: Global, sizes: &[usize]) -> Result<Files, Fail> {
    let mut files = Vec::new(alloc);
    for (number, size) in sizes.iter().enumerate() {
        let name = format!(in alloc; "bin/f{number}")?;
        files.push(File {
            name: name.as_bytes().to_vec(alloc)?,
            bytes: vec![in alloc; b'a'; *size]?,
        })?;
    }
    Ok(Files::new(files))
}

/// The build that says this.
pub fn build(alloc: Global, made: &Made) -> Result<Build, Fail> {
    let mut packages = Vec::new(alloc);
    for path in made.paths {
        packages.push(Package {
            path: PkgPath::parse(alloc, path.as_bytes())?,
            name: PkgName::parse(alloc, made.name.as_bytes())?,
            run: run(alloc, made.run)?,
            files: files(alloc, made.files)?,
        })?;
    }
    let deps = built(alloc, made.built)?;
    Ok(Build::make(alloc, made.host, made.claim, deps, packages)?)
}

/// The text of the build that says this.
pub fn text(alloc: Global, made: &Made) -> Result<Vec<u8>, Fail> {
    let mut text = Vec::new(alloc);
    build(alloc, made)?.write_to(&mut text)?;
    Ok(text)
}
