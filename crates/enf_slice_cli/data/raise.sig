request(text); alarm(text) +; quake(int);
