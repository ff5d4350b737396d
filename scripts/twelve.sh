#!/usr/bin/env bash
# Sourced by other scripts: a policy of twelve rules of all kinds, with a log.

# write_twelve FOLDER COUNT: leaves its signature, its policy and a log of so many records there, as personal, twelve and
# twelve.log.
write_twelve() {
    cat > "$1/personal" << 'SIGNATURE'
consent(text); revoke(text); request(text); collect(text,text); use(text,text) -; share(text,text) -; delete(text) +;
notify(text,text) +; lock(text); unlock(text) +; breach(int); alarm() +; report(int) +; login(text);
SIGNATURE
    cat > "$1/twelve" << 'POLICY'
rule consent: forall u, p. use(u,p) -> (not revoke(u)) since[0,*] consent(u);
rule purpose: forall u, p. use(u,p) -> once[0,365] collect(u,p);
rule share: forall u, q. share(u,q) -> once[0,*] notify(u,q);
rule erase: forall u. request(u) -> eventually[0,30] delete(u);
rule erased: forall u, p. use(u,p) -> not once[0,*] delete(u);
rule welcome: forall u. consent(u) -> next[0,5] notify(u,"terms");
rule hold: forall u. lock(u) -> (forall p. not use(u,p)) until[0,10] unlock(u);
rule quiet: forall u. request(u) -> always[1,30] forall q. not share(u,q);
rule breach: forall n. breach(n) -> alarm();
rule authority: forall n. breach(n) and 100 < n -> eventually[0,3] report(n);
rule answer: forall u. request(u) -> (eventually[0,5] notify(u,"received")) or delete(u);
rule silence: forall u, q. share(u,q) -> not prev[0,1] share(u,q);
POLICY
    /usr/bin/env python3 - "$2" > "$1/twelve.log" << 'PYTHON'
import sys
state, time = 1, 0
kinds = ['consent("u%d")', 'use("u%d","mail")', 'use("u%d","post")', 'share("u%d","acme")', 'collect("u%d","mail")',
         'login("u%d")', 'request("u%d")', 'lock("u%d")', 'revoke("u%d")', 'breach(%d)']
def draw():
    global state
    state = (state * 1103515245 + 12345) % 2147483648
    return state // 65536
for _ in range(int(sys.argv[1])):
    time += draw() % 8
    print('@%d%s;' % (time, ''.join(' ' + kinds[draw() % 10] % (draw() % 200) for _ in range(draw() % 4))))
PYTHON
}
