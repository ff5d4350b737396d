request(text); consent(text); use(text) -; delete(text) +; unlock(text) +;
lock(text); note(text) +-; alarm() +; ping() +; pong() +;
