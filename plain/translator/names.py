"""The names of the kit's library, and what stands for each in Rust.

A name that isn't here stops the translation. `None` is a name that only proofs use.
"""

# What is in scope everywhere in Rattle, and in Rust has to be named.
PRELUDE = {
    "Vec": "kit::Vec",
    "String": "kit::String",
    "Box": "kit::Box",
    "HostRuntime": "kit::HostRuntime",
    "Print": "kit::rt::Print",
    "Eprint": "kit::rt::Eprint",
    "Input": "kit::rt::Input",
    "Alloc": "kit::rt::Alloc",
    "AllocGlobal": "kit::rt::AllocGlobal",
}

# Names of `std` by their module. A module that is named as a whole is that of "", if it is there.
KIT = {
    "alloc": {"": "kit::alloc", "AllocError": "kit::alloc::AllocError", "AllocFailed": "kit::alloc::AllocFailed",
              "Allocator": "kit::alloc::Allocator", "Global": "kit::alloc::Global"},
    "collections": {name: "kit::collections::" + name
                    for name in ("VecDeque", "LinkedList", "HashMap", "BTreeMap", "HashSet", "BTreeSet")},
    "convert": {"AsStr": "kit::convert::AsStr"},
    "env": {"": "kit::env", "args": "kit::env::args", "Env": "kit::env::Env", "FillError": "kit::env::FillError"},
    "fs": {"": "kit::fs", "File": "kit::fs::File", "metadata": "kit::fs::metadata"},
    "io": {"": "kit::io", **{name: "kit::io::" + name
                             for name in ("BufRead", "BufReader", "BufWriter", "Cursor", "Error", "ErrorKind",
                                          "IsTerminal", "Read", "Result", "Write", "sink", "empty", "writer")}},
    "marker": {"Brand": "kit::marker::Brand", "Model": None},
    "process": {"Abort": "kit::process::Abort"},
    "rt": {name: "kit::rt::" + name for name in ("Alloc", "AllocGlobal", "Eprint", "Input", "Print")},
    "snapshot": {"Snapshot": "kit::snapshot::Snapshot"},
    "sync": {"atomic": "kit::sync::atomic", "Wait": "kit::sync::Wait", "OnceLock": "kit::sync::OnceLock", "Arc": "kit::sync::Arc",
             "Mutex": "kit::sync::Mutex"},
    "test": {"": "kit::test", "*": "kit::test::*", "Fail": "kit::test::Fail"},
    "time": {"Clock": "kit::time::Clock"},
    "thread": {"": "kit::thread",
               **{name: "kit::thread::" + name
                  for name in ("Builder", "JoinHandle", "Promise", "PromisedHandle", "Scope", "Threads", "join", "scope",
                               "for_each_mut", "sleep", "spawn", "yield_now", "available_parallelism")}},
}

# Modules of `std` that are Rust's, with all their names.
SAME = {"array", "cell", "char", "cmp", "error", "fmt", "hash", "hint", "iter", "mem", "num", "ops", "option", "result",
        "slice", "str"}

# Names of `std` that are Rust's, in modules with others that aren't.
SAME_NAMES = {
    "convert": {"From", "Into", "TryFrom", "TryInto", "Infallible", "identity"},
    "marker": {"PhantomData", "Copy", "Send", "Sync"},
    "process": {"ExitCode", "Termination"},
    "time": {"Duration"},
}

# Crates of the kit: a module of the package `kit` stands for each.
CRATES = {"arrayvec", "atomic_table", "byteorder", "clap", "crossbeam_queue", "hex", "itoa", "memchr", "rand_core",
          "rand_pcg"}

# Those whose original the package `kit` can use, by its feature `crates-io`, with the version of the original.
ORIGINALS = {"arrayvec": "0.7", "byteorder": "1", "hex": "0.4", "itoa": "1", "memchr": "2"}

# The version of the crate whose derive is left to it then.
THISERROR = "1"

# Crates of the kit that leave nothing behind.
CRATES_GONE = {"core", "std_alloc", "std_collections", "std_heap", "std_io", "thiserror"}

# Macros that are Rust's as they stand.
MACROS_SAME = {"matches", "write", "writeln", "unreachable", "format_args", "concat", "stringify", "include_str",
               "include_bytes", "env", "line", "file", "column", "macro_rules"}

# Macros that take a handle and a semicolon first, which goes.
MACROS_HANDLE = {"assert", "assert_eq", "assert_ne", "panic", "todo", "unimplemented"}

# Macros that the kit has under a path, with their handle.
MACROS_KIT = {"print", "println", "eprint", "eprintln", "format", "vec"}

MACROS_PROVE = {"prove": "debug_assert", "prove_eq": "debug_assert_eq", "prove_ne": "debug_assert_ne"}

# Attributes that are Rust's, and those that only the prover reads.
ATTRIBUTES = {"allow", "cfg", "cold", "ignore", "inline", "must_use", "non_exhaustive", "repr", "should_panic", "test",
              "unsafe", "macro_export", "default"}
ATTRIBUTES_GONE = {"tactic", "cycle"}

DERIVES = {"Clone", "Copy", "PartialEq", "Eq", "PartialOrd", "Ord", "Default", "Hash", "Debug"}

# Methods that Rust 1.63 lacks: what stands for each, and its first argument.
OLDER = {"is_some_and": ("map_or", "false"), "is_ok_and": ("map_or", "false"), "is_none_or": ("map_or", "true")}


def of_std(segments):
    """What stands for a path of `std`, given without `std` itself: how many of its segments the name takes, and the
    name. Nothing if the path isn't known."""
    module = segments[0]
    if module in SAME:
        return 1, "std::" + module
    rest = segments[1] if len(segments) > 1 else ""
    if rest and module in KIT and rest in KIT[module]:
        return 2, KIT[module][rest]
    if rest and rest in SAME_NAMES.get(module, ()):
        return 2, f"std::{module}::{rest}"
    if not rest and module in KIT and "" in KIT[module]:
        return 1, KIT[module][""]
    return None
