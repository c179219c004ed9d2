"""The packages of a release. Each is made in an empty folder, and answers its path there.

Times are those of the commit, names are in order, and owners are root, so that the same commit gives the same bytes.
"""
import base64
import gzip
import hashlib
import io
import os
import re
import shutil
import subprocess
import tarfile
import time
import tomllib
import zipfile
from pathlib import Path

import kit
import library
import manuals

# What an archive has of the repository, and a Debian package of that.
PAGES = ["README.md", "CHANGELOG.md", "SECURITY.md", "docs", "bench/README.md"]
PAGES += [f"crates/{crate}/README.md" for crate in ("blockview", "tbr_view", "tbr_show")]
OTHERS = ["LICENSE", "examples", "bindings", "install", "uninstall"]
LINK = re.compile(r"(!?)\[([^\]]*)\]\(([^)#\s]*)(#[^)\s]*)?\)")
PYTHON = Path(kit.TOP, "bindings", "python")
PYTHON_PACKAGES = [library.NAME, "mailtext"]
RUST = Path(kit.TOP, "bindings", "rust")
MULTIARCH = "lib/x86_64-linux-gnu"
PACKAGE = "text-block-renderer"
MAILTEXT = "#!/usr/bin/python3 -I\nfrom mailtext.command import main\n\nmain()\n"
# What Debian compiles when the package comes, and takes away when it goes.
SCRIPTS = {
    "postinst": "if [ \"$1\" = configure ] && command -v py3compile >/dev/null; then py3compile -p %s; fi",
    "prerm": "if command -v py3clean >/dev/null; then py3clean -p %s; fi",
}
# There is no address, and Debian asks for one.
MAINTAINER = "The founders of text_block_renderer <founders@text-block-renderer.invalid>"


def stripped(release, tree):
    """A copy of what was built, without the names that only debuggers read."""
    tree.mkdir()
    for part in library.PARTS:
        shutil.copytree(release.built / part, tree / part, symlinks=True)
    programs = [*(tree / "bin").iterdir(), *(it for it in (tree / "lib").glob("*.so.*") if not it.is_symlink())]
    subprocess.run(["strip", "--strip-unneeded", *programs], check=True)
    subprocess.run(["strip", "--strip-debug", *(tree / "lib").glob("*.a")], check=True)
    return tree


def archive(release, tree, room):
    """What is installed, the pages, the examples and the packages of other languages, in one folder."""
    name = f"{library.NAME}-{release.version}-x86_64-linux"
    top = room / name
    shutil.copytree(tree, top, symlinks=True)
    take(release, [*PAGES, *OTHERS], top)
    files = sorted(it for it in top.rglob("*") if it.is_file() and not it.is_symlink())
    sums = "".join(f"{hashlib.sha256(it.read_bytes()).hexdigest()}  {it.relative_to(top)}\n" for it in files)
    (top / "SHA256SUMS").write_text(sums, encoding="utf-8")
    return packed(release, top, room / f"{name}.tar.gz")


def take(release, names, folder):
    """Takes files and folders of the repository, and adds the page on what was proved. No page has a dead link then."""
    listed = subprocess.run(["git", "-C", kit.TOP, "archive", release.commit, *names], stdout=subprocess.PIPE, check=True)
    with tarfile.open(fileobj=io.BytesIO(listed.stdout)) as tar:
        tar.extractall(folder, filter="data")
    (folder / "PROVED.md").write_text(release.proved(), encoding="utf-8")
    for page in folder.rglob("*.md"):
        page.write_text(without_dead_links(page), encoding="utf-8")


def without_dead_links(page):
    """A page in which links to what isn't there are their own words."""

    def kept(link):
        is_picture, words, target, _ = link.groups()
        if "://" in target or not target or (page.parent / target).exists():
            return link[0]
        return words if not is_picture else ""

    return LINK.sub(kept, page.read_text(encoding="utf-8"))


def packed(release, folder, made):
    """A folder as a compressed archive."""
    with open(made, "wb") as file, gzip.GzipFile("", "wb", 9, file, mtime=0) as zipped:
        with tarfile.open(fileobj=zipped, mode="w", format=tarfile.GNU_FORMAT) as tar:
            for path in [folder, *sorted(folder.rglob("*"))]:
                tar.add(path, path.relative_to(folder.parent), recursive=False, filter=lambda it: plain(it, release.seconds))
    return made


def plain(entry, seconds):
    """An entry of an archive that says nothing of the machine."""
    entry.mtime, entry.uid, entry.gid, entry.uname, entry.gname = seconds, 0, 0, "root", "root"
    entry.mode = 0o777 if entry.issym() else 0o755 if entry.mode & 0o100 else 0o644
    return entry


def wheel(release, tree, room):
    """The package for Python with the library in it."""
    project = tomllib.loads((PYTHON / "pyproject.toml").read_text(encoding="utf-8"))["project"]
    code = (tree / "lib" / f"lib{library.NAME}.so").read_bytes()
    tag = f"py3-none-manylinux_{'_'.join(map(str, glibc(code)))}_x86_64"
    info = f"{library.NAME}-{release.version}.dist-info"
    files = {str(it.relative_to(PYTHON)): it.read_bytes() for it in python_files()}
    files[f"{library.NAME}/lib{library.NAME}.so"] = code
    manual = Path("share", manuals.path_of("man", "mailtext"))
    files[f"{info.removesuffix('.dist-info')}.data/data/{manual}"] = manuals.mailtext(release.version).encode()
    files[f"{info}/licenses/LICENSE"] = Path(kit.TOP, "LICENSE").read_bytes()
    files[f"{info}/entry_points.txt"] = entry_points(project).encode()
    files[f"{info}/METADATA"] = metadata(release, project).encode()
    files[f"{info}/WHEEL"] = f"Wheel-Version: 1.0\nGenerator: {library.NAME}\nRoot-Is-Purelib: false\nTag: {tag}\n".encode()
    rows = [f"{name},sha256={digest(data)},{len(data)}" for name, data in files.items()]
    files[f"{info}/RECORD"] = "\n".join([*rows, f"{info}/RECORD,,", ""]).encode()
    made = room / f"{library.NAME}-{release.version}-{tag}.whl"
    with zipfile.ZipFile(made, "w", zipfile.ZIP_DEFLATED) as zipped:
        for name, data in files.items():
            entry = zipfile.ZipInfo(name, time.gmtime(release.seconds)[:6])
            entry.external_attr = 0o644 << 16
            zipped.writestr(entry, data, zipfile.ZIP_DEFLATED)
    return made


def python_files():
    """The files of the packages for Python."""
    folders = [PYTHON / name for name in PYTHON_PACKAGES]
    return [it for folder in folders for it in sorted(folder.iterdir()) if it.suffix in (".py", ".typed")]


def entry_points(project):
    """What pip makes commands of."""
    return "".join(["[console_scripts]\n", *(f"{name} = {called}\n" for name, called in project["scripts"].items())])


def glibc(code):
    """The least version of the C library that has all that these bytes of a shared library ask for."""
    return max((int(major), int(minor)) for major, minor in re.findall(rb"GLIBC_(\d+)\.(\d+)", code))


def metadata(release, project):
    """What pip reads of a package."""
    lines = ["Metadata-Version: 2.4", f"Name: {project['name']}", f"Version: {release.version}"]
    lines += [f"Summary: {project['description']}", "License: MIT", "License-File: LICENSE"]
    lines += [f"Requires-Python: {project['requires-python']}", f"Keywords: {','.join(project['keywords'])}"]
    lines += [f"Classifier: {it}" for it in project["classifiers"]]
    lines += ["Description-Content-Type: text/markdown", "", (PYTHON / "README.md").read_text(encoding="utf-8")]
    return "\n".join(lines)


def digest(data):
    """A checksum as wheels write it."""
    return base64.urlsafe_b64encode(hashlib.sha256(data).digest()).rstrip(b"=").decode()


def crate(release, tree, room):
    """The crate with the static library in it, as cargo packs it."""
    top = room / "crate"
    shutil.copytree(RUST, top, ignore=shutil.ignore_patterns("target", "lib"))
    (top / "lib").mkdir()
    shutil.copy(tree / "lib" / f"lib{library.NAME}.a", top / "lib")
    manifest = top / "Cargo.toml"
    told = manifest.read_text(encoding="utf-8").replace(f'"{library.version()}"', f'"{release.version}"', 1)
    manifest.write_text(told, encoding="utf-8")
    words = ["cargo", "package", "--offline", "--allow-dirty", "--no-verify", "--quiet", "--target-dir", room / "target"]
    library.run(words, cwd=top, env={**os.environ, "RUSTFLAGS": ""})
    return room / "target" / "package" / f"{library.NAME}-{release.version}.crate"


def debian(release, tree, room):
    """A Debian package with the programs, the library, the header, and the packages for Python."""
    top = room / "top"
    usr = top / "usr"
    shutil.copytree(tree, usr, symlinks=True, ignore=shutil.ignore_patterns("pkgconfig", "cmake"))
    (usr / "multiarch").mkdir()
    for it in (usr / "lib").iterdir():
        it.rename(usr / "multiarch" / it.name)
    (usr / "multiarch").rename(usr / MULTIARCH)
    library.describe(usr, MULTIARCH, release.version.removeprefix(library.version()))
    (usr / "share" / "zsh" / "site-functions").rename(usr / "share" / "zsh" / "vendor-completions")
    python_packages(usr)
    manuals.write(usr / "share", "man", "mailtext", manuals.mailtext(release.version))
    documents(release, usr / "share" / "doc" / PACKAGE)
    for page in sorted((usr / "share" / "man").rglob("*.1")):
        zip_file(page)
    control(release, top)
    for path in [top, *top.rglob("*")]:
        if not path.is_symlink():
            runs = path.is_dir() or path.parent == usr / "bin" or path.name in SCRIPTS
            path.chmod(0o755 if runs else 0o644)
    made = room / f"{PACKAGE}_{release.version}_amd64.deb"
    words = ["dpkg-deb", "--root-owner-group", "--uniform-compression", "-Zxz", "--build", top, made]
    library.run(words, env={**os.environ, "SOURCE_DATE_EPOCH": str(release.seconds)})
    return made


def python_packages(usr):
    """The packages for Python where Debian has them, and the command."""
    for file in python_files():
        folder = usr / "lib" / "python3" / "dist-packages" / file.parent.name
        folder.mkdir(parents=True, exist_ok=True)
        shutil.copy(file, folder)
    (usr / "bin" / "mailtext").write_text(MAILTEXT, encoding="ascii")


def documents(release, folder):
    """What a Debian package says of itself."""
    folder.mkdir(parents=True)
    take(release, PAGES, folder)
    licence = Path(kit.TOP, "LICENSE").read_text(encoding="utf-8")
    (folder / "copyright").write_text(f"This is the text block renderer {release.version}.\n\n{licence}", encoding="utf-8")
    (folder / "CHANGELOG.md").rename(folder / "changelog")
    made = time.strftime("%a, %d %b %Y %H:%M:%S +0000", time.gmtime(release.seconds))
    entry = f"{PACKAGE} ({release.version}) unstable; urgency=medium\n\n  * As /usr/share/doc/{PACKAGE}/changelog.gz says.\n"
    (folder / "changelog.Debian").write_text(f"{entry}\n -- {MAINTAINER}  {made}\n", encoding="utf-8")
    zip_file(folder / "changelog")
    zip_file(folder / "changelog.Debian")


def zip_file(path):
    """Puts a file compressed in its own place."""
    with open(f"{path}.gz", "wb") as file, gzip.GzipFile("", "wb", 9, file, mtime=0) as zipped:
        zipped.write(path.read_bytes())
    path.unlink()


def control(release, top):
    """What dpkg reads of a package."""
    folder = top / "DEBIAN"
    size = sum(it.stat().st_size for it in top.rglob("*") if it.is_file() and not it.is_symlink()) // 1024
    code = [*(top / "usr" / "bin" / name for name in library.PROGRAMS), top / "usr" / MULTIARCH / f"lib{library.NAME}.so"]
    libc = ".".join(map(str, max(glibc(it.read_bytes()) for it in code)))
    fields = {
        "Package": PACKAGE,
        "Version": release.version,
        "Architecture": "amd64",
        "Maintainer": MAINTAINER,
        "Installed-Size": size,
        "Depends": f"libc6 (>= {libc}), python3 (>= 3.10)",
        "Section": "text",
        "Priority": "optional",
        "Description": "text, tables and links as lines of a width, by a proved renderer\n"
        " The programs blockrender and blockview lay out text, quotes, lists, links\n"
        " and tables in lines of a width. The library does the same for programs in C,\n"
        " call by call. PROVED.md says what is proved of them. The command mailtext shows\n"
        " mails by it.",
    }
    folder.mkdir()
    (folder / "control").write_text("".join(f"{name}: {value}\n" for name, value in fields.items()), encoding="utf-8")
    scripts(folder)


def scripts(folder):
    """What dpkg does when the package comes and goes."""
    (folder / "triggers").write_text("activate-noawait ldconfig\n", encoding="ascii")
    for name, script in SCRIPTS.items():
        (folder / name).write_text(f"#!/bin/sh\nset -e\n{script % PACKAGE}\n", encoding="ascii")
    of_calls = library.version().split(".")[0]
    (folder / "shlibs").write_text(f"lib{library.NAME} {of_calls} {PACKAGE} (>= {library.version()})\n", encoding="ascii")
