# shellcheck shell=bash disable=SC2034 # these are for who sources it
# The proved crates that scripts know by name, here and nowhere else. What is true of every crate is
# read from crates.txt. It is sourced by tools/shell.sh.

library_crate=capi           # the C boundary, which hosts link
program_crate=trawl          # the program, which people call by its front end
cases_crate=trawl_cases      # the same on many piles with their answers; its `stdout` is what is due
alone_crate=trawl_alone      # the same on piles alone
digests_crate=sha512_vectors # prints the digests of FIPS 180-4's examples

archive=lib$library_crate.a         # the library, as tools/native-lib makes it
verdict=libexec/trawlbeacon/verdict # the proved program, as tools/native-program makes it
