"""dist/ was made of these sources: MANIFEST has this version, the checksums of
what dist/ was proved and built from (tools/sources), and that of each file of
assembly that lies there. One crate for Rust wants the other of this version."""
import hashlib
import re
import subprocess

import tree

DIST = tree.TOP / "dist"
SUM = re.compile(r"^([0-9a-f]{64})  (\S+)$", re.M)
MENDED = "; tools/dist makes dist/ anew, in a quarter of an hour over what rt ci proved"


def manifest():
    return tree.read(DIST / "MANIFEST") if (DIST / "MANIFEST").exists() else ""


def assembly():
    return sorted(it.name for it in DIST.glob("*.s"))


def faults():
    text = manifest()
    version = subprocess.run([tree.TOP / "tools/package/names", "--version"], stdout=subprocess.PIPE, text=True, check=True).stdout.strip()
    if not text.startswith(f"peachanchor {version}\n"):
        yield f"dist/MANIFEST isn't of version {version}{MENDED}"
    if f'version = "={version}"' not in tree.read(tree.TOP / "bindings/rust/Cargo.toml"):
        yield f"bindings/rust/Cargo.toml doesn't want peachanchor-sys of version {version}"
    for kind in ("library", "program", "c"):
        if subprocess.run([tree.TOP / "tools/sources", "--is-made", kind], check=False).returncode:
            what = {"library": "C's library", "program": "the program", "c": "what is C of the library"}[kind]
            yield f"dist/ wasn't made of the sources of {what} as they stand{MENDED}"
    sums = {name: told for told, name in SUM.findall(text)}
    for name in sorted({*sums, *assembly()}):
        if name not in sums:
            yield f"dist/{name} isn't in MANIFEST{MENDED}"
        elif not (DIST / name).is_file():
            yield f"dist/{name} lacks{MENDED}"
        elif hashlib.sha256((DIST / name).read_bytes()).hexdigest() != sums[name]:
            yield f"dist/{name} isn't what MANIFEST has the checksum of{MENDED}"


def looked_at():
    return f"{len(assembly())} files of assembly"
