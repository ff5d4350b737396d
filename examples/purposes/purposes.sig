consent(text, text);
withdraw(text, text);
request(text);
use(text, text) -;
erase(text) +;
