#!/usr/bin/env bash
# Tries the wrong bodies that the pages gate.md and others.md in crates/NAME/must-fail list: the
# prover must refuse each. Run it by hand, and before a release. As a part of the gate it has the
# word `--gate`: then it tries those of the pages gate.md alone, with the libraries that the gate
# has just proved, and fails at once where these are not proved.
#
# It copies the texts of the crates that are named, or of each with such a page, and of those below
# them. All have to be proved as they stand: where the gate has proved this checkout, its libraries
# are taken, and else `rt ci` proves the copy. `--built` takes those of a run of the gate that is
# under way, for crates that it has proved already, and for those right above them. Then it puts in,
# crate by crate, all bodies that lie in different functions and overlap nowhere, and checks these
# functions and those that they call, over the libraries that `rt ci` built. It looks at each body's
# own function: a goal that stays open there, or an error, refuses the body; if the function is
# proved, the body is accepted. Where all that is wrong is that a proof names what the body took
# away, it is refused by its shape alone, which says nothing of the contract: change a value and
# keep the names. What calls a function that is not proved is not judged, so its body is tried
# again, and so is one in a function with another body. A body that does not compile is tried alone,
# and so is one that lies in no function, for which the whole crate is checked; it does not count as
# tried if it still comes to no result.
#
# Up to three crates are tried side by side; `--jobs N` sets another number, and each takes up to 5
# GB. `--keep FOLDER` keeps what each check printed. Verdicts are kept in out/wrong_bodies, crate by
# crate, so a run that was stopped goes on where it was, as long as the texts stay; `--anew` tries
# all. The last line is `N refused, L by shape, M accepted, K not tried, at commit C`, and each body
# that is not refused for its contract has a line before it. The status is 1 where there is one, and
# 2 where a page cannot be read.
#
# It needs Python 3 without packages, and rt.
set -euo pipefail

here=$(cd "$(dirname "${BASH_SOURCE[0]}")" && pwd)
export PYTHONDONTWRITEBYTECODE=1
room=$(mktemp -d)
trap 'rm -rf "$room"' EXIT
. "$here/../large_pages.sh"
use_large_pages "$room"
python3 "$here/main.py" "$@"
