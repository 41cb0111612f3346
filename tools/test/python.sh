# shellcheck shell=bash disable=SC2154 # tools/names.sh and ./test have what is not set here
# The part of ./test that is of Python. It is sourced by ./test, with tools/test/hosts.sh for
# `c_program`.

# The package as Python and, where it is there, mypy read it; and its tests, with the shared library
# and with a program in C that answers the same cases.
python_host() {
    local library own=hosts/python
    library=build/native/libtrawlbeacon.so.$(cut -d. -f1 VERSION)
    tools/shared-lib --made "build/native/$archive" "$library" || tools/shared-lib "build/native/$archive" "$library" || return
    c_program answers || return
    (
        export PYTHONPATH=$own:$own/tests PYTHONPYCACHEPREFIX=$PWD/build/pycache
        export TRAWLBEACON_LIBRARY=$PWD/$library TRAWLBEACON_ANSWERS=$PWD/build/c/answers
        python3 -m py_compile $own/trawlbeacon/*.py $own/tests/*.py $own/examples/*.py $own/wheel.py hosts/outside/first.py || exit
        if command -v mypy >/dev/null; then
            (cd "$own" && mypy --strict --no-error-summary --cache-dir="$OLDPWD/build/mypy" trawlbeacon examples/ask_several.py wheel.py) || exit
        else
            say "LEFT OUT: mypy, which is not installed here"
        fi
        python3 -W error -m unittest discover -s "$own/tests"
    )
}
