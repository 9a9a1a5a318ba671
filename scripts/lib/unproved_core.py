"""Builds the core of the library without any proof: one object that shows the calls pq_core_.. of crates/queue_c.

The front end lowers only what a program's main reaches. So in a copy of the crates queue_c becomes a program, whose main makes each call
that the crate exports. The module then shows each call by its own name, and no main. The toolchain's clang compiles it as it does that of a
proved crate.

The front end drops hints to inline, which are put in again (scripts/lib/hints.py). Where the sources were proved elsewhere no check can fail.
The core is then compiled without them (scripts/lib/unproved_module.py), and has the instructions of a proved one."""
import glob
import os
import re
import shutil

import crate_list
import joining
from hints import with_hints
from tree import TOP, text_of
from unproved import TARGET, Build, NotBuilt
from unproved_module import without_checks

CRATE = "queue_c"
EXPORTED = re.compile(r'#\[unsafe\(no_mangle\)\]\n(?:#\[.*\]\n)*pub extern "C" fn (\w+)\(([^()]*)\)')
NUMBERS = ("u8", "u16", "u32", "u64", "usize")
# A call as a function of the module, and the one that shows it by its own name, which a proved crate has too.
CALL = re.compile(r'(?m)^define internal noundef (\w+) (@"queue_c::(?:\w+::)*(pq_core_\w+)")\((.*)\) (#\d+) \{$')
SHOWN = "define noundef {0} @{2}({3}) {4} {{\n  %result = call noundef {0} {1}({3})\n  ret {0} %result\n}}\n"
# How the front end has the module compiled and how a proved one is, whose code is for another processor and keeps no frame pointers.
CHECKED_WORDS, WORDS = ("-fPIE", "-O0", "-fsanitize=address"), ("-fPIC", "-O3")
ATTRIBUTES = {'sanitize_address "frame-pointer"="all"': "nounwind", '"target-cpu"="x86-64"': '"target-cpu"="x86-64-v2"'}
# No call is made unless the program has so many words. What they are is not known before it runs, so all that they reach is lowered.
MAIN = """
fn main(rt: HostRuntime) {{
    let Ok(words) = env::args(&rt) else {{
        return;
    }};
    let mut count: u32 = 0;
    for _ in words {{
        count = count.wrapping_add(1);
    }}
    if count < 1000 {{
        return;
    }}
    let alloc = rt.alloc();
{calls}
}}
"""


class Caller:
    """Writes the main that makes each call: with zeros, null pointers and empty handles."""

    def __init__(self, folder):
        self.texts = {os.path.basename(it)[:-3]: text_of(it) for it in sorted(glob.glob(f"{folder}/*.rt"))}
        self.uses, self.lines, self.variables = {"std::env"}, [], 0

    def variable(self, value, is_mutable):
        self.variables += 1
        self.lines.append(f"    let {'mut ' if is_mutable else ''}v{self.variables} = {value};")
        return f"v{self.variables}"

    def argument(self, type_):
        """Returns what stands for an argument of this type."""
        if type_ == "Global":
            return "alloc"
        if type_.startswith("&mut "):
            return f"&mut {self.variable(self.value(type_[5:]), True)}"
        return f"&{self.variable(self.value(type_[1:]), False)}" if type_.startswith("&") else self.value(type_)

    def value(self, type_):
        """Returns a value of this type."""
        if type_ in NUMBERS:
            return f"0{type_}"
        if type_.startswith("["):
            return f"[{self.value(type_[1:-1])}]"
        if type_.startswith("*mut "):
            self.uses.add("std::ptr::null_mut")
            return "null_mut()"
        module = next(name for name, text in self.texts.items() if re.search(rf"(?m)^pub struct {type_} ", text))
        self.uses.add(f"crate::{module}::{type_}")
        if re.search(rf"pub fn none\(\) -> {type_}\b", self.texts[module]):
            return f"{type_}::none()"
        fields = re.search(rf"(?ms)^pub struct {type_} \{{\n(.*?)^\}}", self.texts[module])[1]
        given = [f"{name}: {self.value(of)}" for name, of in re.findall(r"pub (\w+): ([^,]+),", fields)]
        return f"{type_} {{ {', '.join(given)} }}"

    def main(self):
        """Returns the text of the program's root: that of the library, and main."""
        for module, text in self.texts.items():
            for name, parameters in EXPORTED.findall(text):
                types = [it.partition(":")[2].strip() for it in parameters.split(",") if it.strip()]
                self.lines.append(f"    let _ = {module}::{name}({', '.join([self.argument(it) for it in types])});")
        uses = "".join(f"use {it};\n" for it in sorted(self.uses))
        return f"{self.texts['lib']}\n{uses}{MAIN.format(calls=chr(10).join(self.lines))}"


class CoreBuild(Build):
    """The build of the core, with checks or without, in a folder for what is made on the way."""

    def __init__(self, kit, room, has_checks):
        super().__init__(CRATE, kit, room)
        self.top, self.has_checks = f"{room}/copy", has_checks

    def copy(self):
        """Copies the crates that queue_c stands on, but for proofs, and makes it a program. What is read-only here is not in the copy."""
        names = crate_list.with_below([CRATE])
        folders = [f"crates/{name}/{part}" for name in names for part in ("src", "specs")]
        for it in [it for folder in folders for it in glob.glob(f"{folder}/**", root_dir=TOP, recursive=True)]:
            if os.path.isfile(f"{TOP}/{it}"):
                os.makedirs(os.path.dirname(f"{self.top}/{it}"), exist_ok=True)
                shutil.copyfile(f"{TOP}/{it}", f"{self.top}/{it}")
        with open(f"{self.top}/crates.txt", "w", encoding="utf-8") as it:
            lines = crate_list.lines()
            it.writelines(f"{lines[name]}\n".replace(f"{CRATE} staticlib", CRATE) for name in names)
        folder = f"{self.top}/crates/{CRATE}/src"
        text = Caller(folder).main()
        os.remove(f"{folder}/lib.rt")
        with open(f"{folder}/main.rt", "w", encoding="utf-8") as it:
            it.write(text)

    def exported(self, text):
        """Returns the text of the module where it exports the calls, and no main."""
        shown = [SHOWN.format(*it) for it in CALL.findall(text)]
        if not shown:
            raise NotBuilt(f"crates/{CRATE} exports no call pq_core_..")
        for checked, proved in ATTRIBUTES.items():
            text = text.replace(checked, proved)
        return "".join([text.replace("define i32 @main()", "define internal i32 @unused_main()"), *shown])

    def code(self, given):
        """Compiles the module: its object, and where it has checks that which tells of one."""
        clang = f"{self.kit}/toolchain/bin/clang"
        self.need([clang, f"--target={TARGET}", "--no-default-config", "-emit-llvm", "-x", "ir", "-S", "module.bc", "-o", "module.ll"])
        text = with_hints(self.exported(text_of(f"{self.room}/module.ll")), [f"{self.top}/crates", f"{self.kit}/rattle"])
        with open(f"{self.room}/module.ll", "w", encoding="utf-8") as it:
            it.write(text if self.has_checks else without_checks(text))
        words = ["module.ll" if it == "module.bc" else it for it in given if it not in CHECKED_WORDS]
        self.need([clang, *words, *WORDS])
        return ["module.o", *([self.tells_of_a_check()] if self.has_checks else [])]

    def make(self):
        """Builds the core, and returns where it is."""
        self.copy()
        self.mirror()
        given = self.lower()
        self.stage = "the compiler makes code of them"
        parts = [f"{self.room}/{it}" for it in self.code(given)]
        joining.join_core([*parts, f"{self.kit}/c/liblibc_c.a"], f"{self.room}/core.o")
        return f"{self.room}/core.o"
