# shellcheck shell=bash disable=SC2034,SC2154
# What the examples and the tests need beside the program. The variable top is the checkout. TOHMERIL_WITHOUT=NAME,.. leaves parts out
# by name; whatever else is missing is a failure.
#
# PYTHON names the Python that is used. Else it is the first of python3, the environment .venv of this checkout and /usr/bin/python3
# that has all the modules.

left_out=,${TOHMERIL_WITHOUT:-},

# Each part is a command or a module of Python; in the end the package of Debian that has it.
declare -A command_of=([gcc]=gcc [git]=git [graphviz]=dot [man]=man [parallel]=parallel [python3]=python3 [sqlite3]=sqlite3)
declare -A module_of=([black]=black [distributed]=distributed [matplotlib]=matplotlib [mypy]=mypy [pandas]=pandas [pytest]=pytest
    [setuptools]=setuptools [tqdm]=tqdm [venv]=ensurepip [wheel]=wheel)
declare -A package_of=([gcc]="gcc libc6-dev" [man]=man-db [distributed]=python3-distributed [matplotlib]=python3-matplotlib [pandas]=python3-pandas
    [pytest]=python3-pytest [setuptools]=python3-setuptools [tqdm]=python3-tqdm [venv]=python3-venv [wheel]=python3-wheel)

# The parts of the first example, and those of all tests.
parts_of_example=(python3 sqlite3)
parts_of_tests=("${!command_of[@]}" "${!module_of[@]}")

is_left_out() {
    case $left_out in
        *",$1,"*) return 0 ;;
    esac
    return 1
}

# Ends with 2 where TOHMERIL_WITHOUT has a name that is no part.
refuse_unknown() {
    local part
    for part in ${left_out//,/ }; do
        if [ -z "${command_of[$part]:-}${module_of[$part]:-}" ]; then
            echo "$1: TOHMERIL_WITHOUT has no part $part; the parts are $(printf '%s\n' "${parts_of_tests[@]}" | sort | tr '\n' ' ')" >&2
            exit 2
        fi
    done
}

# lacking_modules PYTHON MODULE..: those that this Python does not have; all, where it is older than 3.9 or does not run. A pandas
# that is older than 1.5 does not count.
lacking_modules() {
    "$1" -c 'import importlib.metadata, importlib.util, sys

def is_here(name):
    if sys.version_info < (3, 9) or importlib.util.find_spec(name) is None:
        return False
    return name != "pandas" or tuple(map(int, importlib.metadata.version(name).split(".")[:2])) >= (1, 5)

print(*[name for name in sys.argv[1:] if not is_here(name)])' "${@:2}" 2> /dev/null || echo "${@:2}"
}

# choose_python MODULE..: sets python, and lacking, the modules that it does not have.
choose_python() {
    local each
    if [ -n "${PYTHON:-}" ]; then
        python=$PYTHON
        lacking=$(lacking_modules "$python" "$@")
        return
    fi
    for each in python3 "$top/.venv/bin/python" /usr/bin/python3; do
        command -v "$each" > /dev/null || continue
        python=$(command -v "$each")
        lacking=$(lacking_modules "$python" "$@")
        [ -n "$lacking" ] || return 0
    done
    python=/usr/bin/python3
    lacking=$(lacking_modules "$python" "$@")
}

# look_for PART..: sets python, and missing, the parts that are not here and are not left out.
look_for() {
    local part modules=()
    missing=()
    for part in "$@"; do
        if is_left_out "$part"; then
            continue
        elif [ -n "${module_of[$part]:-}" ]; then
            modules+=("${module_of[$part]}")
        else
            command -v "${command_of[$part]}" > /dev/null || missing+=("$part")
        fi
    done
    choose_python "${modules[@]}"
    for part in "$@"; do
        [ -n "${module_of[$part]:-}" ] || continue
        case " $lacking " in
            *" ${module_of[$part]} "*) missing+=("$part") ;;
        esac
    done
}

# need WHO PART..: sets python, and ends with 3 where a part is missing that is not left out by name.
need() {
    refuse_unknown "$1"
    look_for "${@:2}"
    if [ ${#missing[@]} != 0 ]; then
        echo "$1: not tested, as these are missing for $python: ${missing[*]}. Run tools/setup, or leave them out by TOHMERIL_WITHOUT=NAME,.." >&2
        exit 3
    fi
}

# need_program WHO FILE: ends with 3 where there is no program.
need_program() {
    if [ ! -x "$2" ]; then
        echo "$1: not tested, as there is no program $2. Build it by ./tohmeril example, or name one by TOHMERIL" >&2
        exit 3
    fi
}

# tell_left_out WHO PART..: says which of these parts are left out.
tell_left_out() {
    local part
    for part in "${@:2}"; do
        ! is_left_out "$part" || echo "$1: without $part, whose tests are left out, as TOHMERIL_WITHOUT says"
    done
}
