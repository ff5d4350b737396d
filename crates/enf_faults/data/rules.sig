consent(text); revoke(text); request(text); collect(text,text);
use(text,text) -; share(text,text) -; delete(text) +; notify(text,text) +;
lock(text); unlock(text) +; breach(int); alarm() +; report(int) +; login(text);
