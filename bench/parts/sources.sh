# Prints a SHA-256 of everything that a build depends on: the version of the toolchain, crates.txt, HANDLES, and the files of all crates,
# except edits and what earlier builds left.
cd "$(dirname "$0")/../.." || exit 1
{
  rt version
  find HANDLES crates crates.txt -type f -not -path '*/out/*' -not -path '*/must-fail/*' -not -path '*/more-edits/*' -print0 |
    LC_ALL=C sort -z | xargs -0 sha256sum
} | sha256sum | cut -d ' ' -f 1
