"""The programs beside which this folder's scripts measure. Plain rustc builds them, over sources of Debian's packages:

- syn 1, with span locations and without;
- syn 2, with span locations, over proc-macro2 1.0.47 and what `stubs/proc_macro2_more.rs` adds to it;
- rust-analyzer's parser, which makes events and no tree: what it asks for of crates that Debian doesn't have stands in
  `stubs/`, where an emoji is not known, nothing is traced, and a frontmatter is looked for as it does;
- rustc itself, which only parses.

syn 2 and rust-analyzer's parser are of the package rust-web-src, which can't be installed beside rust-src: it is
downloaded, and a part of it unpacked."""

import glob
import os
import shutil
import subprocess
import sys

HERE = os.path.dirname(os.path.abspath(__file__))
TOP = os.path.dirname(HERE)
REGISTRY = "/usr/share/cargo/registry"
FILE_PEER = HERE + "/file_peer.rs"

SPANS = ["--cfg", "span_locations"]
# Debian's syn: what it is called beside one program of ours alone, and the flags that its tokens are built with.
SYN = {"peer with spans": SPANS, "peer without": []}

ANALYZER = "src/tools/rust-analyzer/crates/"
SYN_2 = "src/tools/rustc-perf/collector/compile-benchmarks/syn-2.*[0-9]"
# What is unpacked of rustc's sources.
PARTS = [
    "compiler/rustc_lexer", "library/vendor/memchr-*", "library/vendor/rustc-literal-escaper-*", ANALYZER + "parser",
    ANALYZER + "edition", SYN_2,
]


class Crates:
    """Crates that are built into a folder."""

    def __init__(self, folder):
        os.mkdir(folder)
        self.folder = folder

    def build(self, name, edition, below, *more):
        """Builds a crate over those that are named, which were built before."""
        extern = [word for it in below for word in ("--extern", f"{it}={self.folder}/lib{it}.rlib")]
        rustc = ["rustc", "-O", "--cap-lints", "allow", "--out-dir", self.folder, "-L", self.folder, *extern]
        subprocess.run([*rustc, "--crate-name", name, "--edition", edition, *more], check=True)

    def library(self, name, source, below=(), flags=(), edition="2021"):
        self.build(name, edition, below, "--crate-type", "rlib", *flags, source)

    def program(self, source, below):
        """A program of one file: where it stands."""
        self.build("peer", "2021", below, source)
        return os.path.join(self.folder, "peer")

    def tokens(self, flags=(), source=None):
        """Debian's proc-macro2, or one of that source, over Debian's unicode-ident."""
        self.library("unicode_ident", debian("unicode-ident"), edition="2018")
        self.library("proc_macro2", source or debian("proc-macro2"), ["unicode_ident"], flags, "2018")


def debian(name):
    """The source of a crate of Debian's."""
    return glob.glob(f"{REGISTRY}/{name}-[0-9]*")[0] + "/src/lib.rs"


def stub(name):
    return f"{HERE}/stubs/{name}.rs"


def features(*names):
    return [word for name in names for word in ("--cfg", f'feature="{name}"')]


def syn_peer(folder, flags, source, tokens=None, syn=None):
    """The program of a file over syn, quote and proc-macro2, which is built with these flags: Debian's, or those of
    other sources."""
    crates = Crates(folder)
    crates.tokens(flags, tokens)
    crates.library("quote", debian("quote"), ["proc_macro2"], edition="2018")
    of_syn = features("parsing", "printing", "full", "quote")
    edition = "2021" if syn else "2018"
    crates.library("syn", syn or debian("syn"), ["unicode_ident", "proc_macro2", "quote"], of_syn, edition)
    return crates.program(source, ["proc_macro2", "quote", "syn"])


def rustc_sources(folder):
    """The part of Debian's rust-web-src that peers are built of, unpacked into a folder if it isn't there yet."""
    if not os.path.isdir(folder):
        os.mkdir(folder)
        download = ["apt-get", "-qq", "-o", "APT::Sandbox::User=root", "download", "rust-web-src"]
        subprocess.run(download, cwd=folder, check=True)
        wanted = " ".join(f"'*/{part}/src'" for part in PARTS)
        unpack = f"dpkg-deb --fsys-tarfile *.deb | tar -x --wildcards {wanted}"
        subprocess.run(unpack, shell=True, cwd=folder, check=True)
    return lambda part: sorted(glob.glob(f"{folder}/usr/src/rustc-*/{part}/src/lib.rs"))[0]


def syn_2_peer(folder, found):
    """The program of `file_peer.rs` over syn 2."""
    tokens = shutil.copytree(os.path.dirname(debian("proc-macro2")), folder + "-tokens") + "/lib.rs"
    with open(tokens, "a", encoding="utf-8") as whole, open(stub("proc_macro2_more"), encoding="utf-8") as more:
        whole.write(more.read())
    return syn_peer(folder, SPANS, FILE_PEER, tokens, found(SYN_2))


def events_peer(folder, found):
    """The program of `events_peer.rs` over rust-analyzer's parser."""
    crates = Crates(folder)
    crates.library("ident", debian("unicode-ident"), edition="2018")
    crates.library("unicode_ident", stub("unicode_ident"), ["ident"])
    for name in ("unicode_properties", "drop_bomb", "tracing", "winnow"):
        crates.library(name, stub(name))
    crates.library("memchr", found("library/vendor/memchr-*"), flags=features("std", "alloc"))
    crates.library("rustc_literal_escaper", found("library/vendor/rustc-literal-escaper-*"))
    crates.library("edition", found(ANALYZER + "edition"), edition="2024")
    of_lexer = ["memchr", "unicode_ident", "unicode_properties"]
    crates.library("ra_ap_rustc_lexer", found("compiler/rustc_lexer"), of_lexer, edition="2024")
    below = ["drop_bomb", "tracing", "winnow", "ra_ap_rustc_lexer", "rustc_literal_escaper", "edition"]
    crates.library("parser", found(ANALYZER + "parser"), below, edition="2024")
    return crates.program(HERE + "/events_peer.rs", ["parser"])


def rustc_that_parses():
    """The command of rustc that parses what stands on standard input, and no more."""
    ran = subprocess.run(["rustc", "--print", "sysroot"], capture_output=True, text=True, check=True)
    rustc = ran.stdout.strip() + "/bin/rustc"
    command = ["env", "RUSTC_BOOTSTRAP=1", rustc, "--edition", "2021", "-Zparse-crate-root-only", "-"]
    subprocess.run(command, input=b"mod elsewhere; unknown!();", check=True)
    return command


def of_syn(program):
    return {"whole": [program], "read": [program, "read"], "lex": [program, "lex"]}


def of_events(program):
    return {"whole": [program], "read": [program], "lex": [program, "lex"]}


def all_peers(work):
    """Each peer's name, and its command for each task that it does: `whole`, which prints what was read if it prints
    at all, `read`, and `lex`. One that can't be had is told of, and left out."""
    at = lambda name: os.path.join(work, name)
    found = lambda: rustc_sources(at("rustc"))
    makers = {
        "syn": lambda: of_syn(syn_peer(at("syn"), SPANS, FILE_PEER)),
        "syn without spans": lambda: of_syn(syn_peer(at("syn-without-spans"), [], FILE_PEER)),
        "syn 2": lambda: of_syn(syn_2_peer(at("syn-2"), found())),
        "rust-analyzer": lambda: of_events(events_peer(at("rust-analyzer"), found())),
        "rustc": lambda: dict.fromkeys(["whole", "read"], rustc_that_parses()),
    }
    peers = {}
    for name, make in makers.items():
        try:
            peers[name] = make()
        except (subprocess.CalledProcessError, OSError, IndexError) as fault:
            print(f"{name} is left out: {fault}", file=sys.stderr)
    return peers
