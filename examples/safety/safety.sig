open(text);
close(text);
stop(text);
fault(text);
acknowledge(text);
start(text) -;
alarm(text) +;
