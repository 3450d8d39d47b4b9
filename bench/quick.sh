#!/usr/bin/env bash
# Builds the program of this clone without any proof, optimized, into the file OUT: to measure a change before it is proved. It says nothing of whether the
# change can be proved, and the program isn't for use: it has no checks, so that what a proof would have refused does anything.
#
# `rt try` makes of what isn't proved a module with a check at each step. It gets the toolchain with another clang, which keeps that module and fails; the
# checks are taken out of the module's text, and clang compiles it as `rt run` has it compile a proved one.
# Usage: bench/quick.sh OUT (CRATE=.. the crate of another program, as session_refusals, which tools/fail-alloc can run then; RT=.. another `rt` than the
# path's; KEEP=FOLDER keeps what is made on the way, as the text of the module).
set -euo pipefail
shopt -s extglob
here=$(cd "$(dirname "$0")" && pwd)
out=$(realpath -m "${1:?usage: bench/quick.sh OUT}")
crate=${CRATE:-rdfkeep}
kit=$(dirname "$(dirname "$(realpath "$(command -v "${RT:-rt}")")")")
clang=$kit/toolchain/bin/clang
work=$(realpath -m "${KEEP:-$(mktemp -d)}")
if [ -z "${KEEP:-}" ]; then trap 'rm -rf "$work"' EXIT; fi
tools=$work/kit
rm -rf "$tools" "$work/module.bc"
mkdir -p "$tools/bin" "$tools/toolchain/bin"
ln -s "$kit"/!(bin|toolchain) "$tools/"
ln -s "$kit"/toolchain/!(bin) "$tools/toolchain/"
ln -s "$kit"/toolchain/bin/!(clang) "$tools/toolchain/bin/"
ln -s "$kit"/bin/!(rattle|rt|rtlib.py) "$tools/bin/"
cp "$kit"/bin/{rt,rtlib.py} "$tools/bin/" # which take the folder that they lie in for the kit's
# A try looks for names besides that a check would refuse, which takes a processor as long as all else.
printf '#!/bin/sh\n[ "$1" != check ] || exit 0\nexec "%s" "$@"\n' "$kit/bin/rattle" > "$tools/bin/rattle"
printf '#!/bin/bash\ncase " $* " in *" -fsanitize=address "*) cp module.bc "%s"; exit 1 ;; esac\nexec "%s" "$@"\n' "$work" "$clang" > "$tools/toolchain/bin/clang"
chmod +x "$tools/bin/rattle" "$tools/toolchain/bin/clang"
(cd "$here/../crates/$crate" && python3 -B "$tools/bin/rt" try -- --version) > "$work/said" 2>&1 < /dev/null || true
[ -s "$work/module.bc" ] || { cat "$work/said" >&2; exit 1; }
"$clang" --target=x86_64-unknown-linux-gnu -x ir -S -emit-llvm -Xclang -disable-llvm-passes -o "$work/module.ll" "$work/module.bc"

python3 - "$work" "$kit/rattle" "$here/../crates" <<'PY'
import collections, pathlib, re, sys

work, *folders = map(pathlib.Path, sys.argv[1:])
text = (work / "module.ll").read_bytes()
CHECK = rb'@"rattle-(?:llvm-checks::|try::site-)'
text, bodies = re.subn(rb"^define [^@\n]*" + CHECK + rb"[^{\n]*\{\n(?:.*\n)*?\}\n", b"", text, flags=re.M)
text, calls = re.subn(rb"^  call void " + CHECK + rb".*\n", b"", text, flags=re.M)
# what marks memory that no step has written yet
text, fills = re.subn(rb"^  call void @llvm\.memset\.p0\.i64\(ptr [^,\n]*, i8 -86, .*\n", b"", text, flags=re.M)
text, marks = re.subn(rb' sanitize_address( "frame-pointer"="all")?', b"", text)
text = text.replace(b'"target-cpu"="x86-64"', b'"target-cpu"="x86-64-v2"').replace(b" = { }\n", b" = { nounwind }\n")
if not (bodies and calls and fills and marks) or re.search(CHECK, text):
    sys.exit("bench/quick.sh: the kit's checks stand in another form than this script knows")

# A try forgets how the sources want functions inlined. What is wanted of one and not of another of the same name stays forgotten.
SAID = {"inline(always)": b" alwaysinline", "inline(never)": b" noinline", "cold": b" cold noinline"}
ITEM = re.compile(r"^impl\b([^{\n]*)|^( *)((?:#\[[^\n]*\]\s+)*)(?:pub(?:\([^)\n]*\))? )?(?:const |unsafe )*fn (\w+)", re.M)
OWNER = re.compile(r"\s*(?:(?:\w+::)*(\w+) for )?(&?)(?:'\w+ )?(?:mut )?(?:\w+::)*(\w+)")
wanted = collections.defaultdict(set)
for folder in folders:
    for file in folder.glob("*/src/**/*.rt"):
        crate, _, *path = (it for it in file.relative_to(folder).with_suffix("").parts if it not in ("lib", "main"))
        for header, inner, said, name in ITEM.findall(file.read_text()):
            while "<" in header:
                header, last = re.sub("<[^<>]*>", "", header), header
                header = "" if header == last else header
            if not name:
                trait, behind, own = (OWNER.match(header) or OWNER.match("_")).groups()
                owner = ("Ref" if behind else "") + own[:1].upper() + own[1:] + (trait or "")
            key = f"{crate}//{owner}::{name}" if inner else "::".join([crate, *path, name])
            if name:
                wanted[key].add(next((SAID[it] for it in reversed(SAID) if f"#[{it}]" in said), b""))

def marked(line):
    *path, name = line[2].decode().split("::<")[0].split("::")
    found = wanted.get("::".join([*path, name])) or path and wanted.get(f"{path[0]}//{path[-1]}::{name}") or {b""}
    return line[1] + (min(found) if len(found) == 1 else b"")

text = re.sub(rb'^(define [^@\n]*@"([^"\n]*)"[^{\n]* #0)(?= \{)', marked, text, flags=re.M)
(work / "clean.ll").write_bytes(text)
PY

"$clang" --target=x86_64-unknown-linux-gnu --sysroot="$kit/toolchain" -march=x86-64 -ffunction-sections -fdata-sections -fPIE -O3 \
    $(printf -- '-mllvm %s ' -no-trap-after-noreturn -trap-unreachable -no-x86-call-frame-opt -disable-machine-licm -disable-postra-machine-licm) \
    -mllvm -sink-common-insts=false -Xclang -fmerge-functions -mllvm -mergefunc-use-aliases -c -x ir -o "$work/program.o" "$work/clean.ll"
"$kit/bin/rattle-link" --target x86_64-unknown-linux-gnu --toolchain "$kit/toolchain" -o "$out" "$work/program.o" "$kit/c/libos_c.a" "$kit/c/liblibc_c.a" > /dev/null
[ "$crate" != rdfkeep ] || "$out" --version
