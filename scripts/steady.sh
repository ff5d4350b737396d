# steady FOLDER: the words before a command by which the system gives it the same random bytes in each run. Hashes begin
# from a drawn seed, and so what a run costs differs a little from run to run; costs that are compared are counted with
# one seed. Without a C compiler there are no such words.
steady() {
    command -v cc > /dev/null || return 0
    cc -O1 -shared -fPIC -x c -o "$1/steady.so" - <<'C' || return 0
#include <stddef.h>
#include <string.h>
int getentropy(void *bytes, size_t count) { memset(bytes, 90, count); return 0; }
C
    echo "env LD_PRELOAD=$1/steady.so"
}
