"""The crates as cargo sees them: the workspace builds offline, its tests run, and a crate elsewhere that depends on rsmp_site by its
path does, without std too.

  cargo.py --stored
"""
import pathlib
import subprocess
import sys
import tempfile

from cases import ROOT

CARGO, RUN = ROOT / "build" / "tools" / "cargo", ROOT / "build" / "tools" / "run"
TABLE = ROOT / "examples" / "barrier.bits"
NONE = 77

MANIFEST = f"""[package]
name = "elsewhere"
version = "1.0.0"
edition = "2021"

[features]
errors = ["rsmp_site/std"]

[dependencies]
rsmp_site = {{ path = "{ROOT}/host/rsmp_site", default-features = false }}

[workspace]
"""
SOURCE = f"""use rsmp_site::{{Site, Start}};

#[cfg(feature = "errors")]
fn told(refusal: &dyn std::error::Error) -> String {{
    refusal.to_string()
}}

#[cfg(not(feature = "errors"))]
fn told(refusal: &rsmp_site::Refusal) -> String {{
    format!("without std: {{}}", refusal)
}}

fn main() {{
    let start = Start {{ links: 1, primary: Some(0), period: 60, first: 0, time: 0 }};
    let mut site = Site::start(include_bytes!("{TABLE}"), &start).expect("the example is a table");
    println!("{{}}", told(&site.connect(1, 0).unwrap_err()));
    println!("{{}} {{:?}}", rsmp_site::VERSION, site);
}}
"""
WANTED = "no such link (number 2)"


def cargo(*words, where):
    done = subprocess.run([CARGO, *words], cwd=where, capture_output=True, text=True)
    if done.returncode == NONE:
        print("cargo: not run, there is no cargo")
        sys.exit(0)
    if done.returncode:
        sys.exit(f"cargo {' '.join(words)}: status {done.returncode}\n{done.stdout[-2000:]}{done.stderr[-3000:]}")
    if "warning:" in done.stderr:
        sys.exit(f"cargo {' '.join(words)}: {done.stderr[-2000:]}")
    return done.stdout


def main(words):
    if words != ["--stored"]:
        print(__doc__)
        return 2
    version = (ROOT / "VERSION").read_text().strip()
    host = ROOT / "host"
    cargo("build", "--offline", "--locked", "--workspace", where=host)
    tests = cargo("test", "--offline", "--locked", "--workspace", where=host)
    if tests.count("test result: ok.") < 3 or "refusals_are_typed ... ok" not in tests:
        sys.exit(f"cargo test: {tests}")
    with tempfile.TemporaryDirectory() as name:
        place = pathlib.Path(name)
        (place / "src").mkdir()
        (place / "Cargo.toml").write_text(MANIFEST)
        (place / "src" / "main.rs").write_text(SOURCE)
        seen = f"{version} [Seen {{ phase: Down, version: None, held: 0, lost: 0 }}]"
        for more, wanted in (((), f"without std: {WANTED}\n{seen}\n"), (("--features", "errors"), f"{WANTED}\n{seen}\n")):
            said = cargo("run", "--offline", "--quiet", *more, where=place)
            if said != wanted:
                sys.exit(f"cargo: a crate elsewhere says {said!r}, not {wanted!r}")
    print(f"cargo: the workspace builds offline and its tests pass; a crate elsewhere depends on rsmp_site {version} by path, with std and without")
    return 0


if __name__ == "__main__":
    sys.exit(main(sys.argv[1:]))
