# The header: it says which C it wants and is right about it, its version is that of VERSION, and its numbers are those of docs/RECORD.md.
set -u
. tests/shared/complaints.sh
compile="gcc -pedantic -Wall -Wextra -Werror -fsyntax-only -Iinclude"
for standard in c99 c11; do
    $compile -std=$standard examples/session.c && $compile -std=$standard examples/session_am13e230x.c || complain "$standard does not take the header"
done
$compile -std=c89 examples/session.c 2>&1 | grep -q 'wants C99 or later' || complain "c89 is not told which C is wanted"
if command -v g++ >/dev/null; then
    echo '#include "bhorelmu.h"' | g++ -std=c++11 -pedantic -Wall -Wextra -Werror -fsyntax-only -Iinclude -x c++ - ||
        complain "C++11 does not take the header"
fi
python3 -B tests/library/header.py || bad=1
exit "$bad"
