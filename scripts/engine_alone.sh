#!/bin/sh
# Makes a folder with one engine alone, to prove, build and count a change of it quickly: engine_alone.sh ENGINE [FOLDER].
#
# ENGINE is a subcommand: tlp, endpoint, decode, check, upgrade, search, step or trace (`step --trace`). FOLDER gets copies
# of the crates that the engine stands on, with what was proved of them here, and a program `alone` of a few lines, which
# `rt run` proves and builds; it is ~/.cache/pciex/alone-ENGINE if it isn't given. Run again over the same FOLDER it copies
# what changed. It writes into no folder that has something in it, unless it made that folder itself.
#
#     cd "$(sh scripts/engine_alone.sh tlp)/crates/alone" && rt run < /dev/null
#     sh bench/run.sh --alone tlp
#
# The first build takes 45 seconds; after an edit of a body, all above it is proved and built in about 80.
set -eu
unset CDPATH
case $#,${1:-},${2-.} in
    1,[!,-]* | 2,[!,-]*,[!-]*) ;;
    *) echo "usage: engine_alone.sh ENGINE [FOLDER]" >&2; exit 2 ;;
esac
engine=$1
folder=${2:-${XDG_CACHE_HOME:-$HOME/.cache}/pciex/alone-$engine}
case $folder in
    /*) ;;
    *) folder=$PWD/$folder ;;
esac
cd "$(dirname "$0")/.."
mark=$folder/made-by-engine-alone
uses='' before='' more='' beside=seq_memory
case $engine in
    tlp)
        crate=packet_engine function=run_tlp more='
        extent,'
        uses='use seq_memory::Extent;'
        before='    let Some(extent) = Extent::new(0, 4096, 64) else {
        return ExitCode::from(2);
    };'
        ;;
    endpoint)
        crate=endpoint_engine function=run_endpoint beside=config_core more='
        options,'
        uses='use config_core::Setup;
use endpoint_engine::EndpointOptions;'
        before='    let Some(setup) = Setup::new(4096, 0x1234, 0x7C1E) else {
        return ExitCode::from(2);
    };
    let options = EndpointOptions {
        setup,
        is_traced: false,
    };'
        ;;
    decode) crate=packet_engine function=run_decode ;;
    check)
        crate=trace_engine function=run_check more='
        false,'
        ;;
    upgrade) crate=trace_engine function=run_upgrade ;;
    search)
        crate=search_engine function=run_search_with_reasons more='
        1_000_000,'
        ;;
    step | trace)
        crate=step_engine function=run_step
        traced=false
        [ "$engine" = step ] || traced=true
        more='
        options,'
        uses='use step_engine::StepOptions;'
        before="    let options = StepOptions {
        is_traced: $traced,
        keeps_going: false,
        echoes: false,
    };"
        ;;
    *) echo "engine_alone.sh: ENGINE is tlp, endpoint, decode, check, upgrade, search, step or trace" >&2; exit 2 ;;
esac

# The crates below the engine, itself included, as lines of crates.txt; the kit's are left out.
if [ -L "$folder" ] || { [ -e "$folder" ] && [ "$(stat -c %u "$folder")" != "$(id -u)" ]; }; then
    echo "engine_alone.sh: $folder is a link, or another user's" >&2
    exit 1
fi
if [ ! -f "$mark" ] && [ -e "$folder" ] && [ -n "$(ls -A "$folder")" ]; then
    echo "engine_alone.sh: $folder has something in it that engine_alone.sh didn't make" >&2
    exit 1
fi
mkdir -p "$folder/crates/alone/src"
: > "$mark"
awk -v top="$crate" '
    /^#/ || !/:/ { next }
    { name = $1; sub(":", "", name); line[name] = $0; order[++count] = name }
    END {
        wanted[top] = 1
        do {
            more = 0
            for (name in wanted) {
                words = split(line[name], word, " ")
                for (i = 2; i <= words; i++) if (word[i] in line && !(word[i] in wanted)) { wanted[word[i]] = 1; more = 1 }
            }
        } while (more)
        for (i = 1; i <= count; i++) if (order[i] in wanted) print line[order[i]]
    }' crates.txt > "$folder/crates.txt"
below=$(sed 's/:.*//' "$folder/crates.txt")
echo "alone: $crate $beside" >> "$folder/crates.txt"
cp HANDLES "$folder/"
for name in $below; do
    mkdir -p "$folder/crates/$name"
    for part in src specs proofs; do
        rm -rf "$folder/crates/$name/$part"
        [ ! -d "crates/$name/$part" ] || cp -a "crates/$name/$part" "$folder/crates/$name/"
    done
    [ -d "$folder/crates/$name/out" ] || [ ! -d "crates/$name/out" ] || cp -a "crates/$name/out" "$folder/crates/$name/"
done
cat > "$folder/crates/alone/src/main.rt" <<END
//! The engine of \`pciex $engine\` alone.
#![tactic(auto)]

$uses
use std::process::ExitCode;
use $crate::$function;

fn main(rt: HostRuntime) -> ExitCode {
$before
    let run = $function(
        rt.alloc(),$more
        &mut rt.stdin(),
        &mut rt.stdout(),
        &mut rt.stderr(),
    );
    ExitCode::from(run.unwrap_or(1))
}
END
git -C "$folder" init -q
echo "$folder"
