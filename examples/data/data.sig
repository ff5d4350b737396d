consent(text);
revoke(text);
request(text);
breach(text);
answer(text);
use(text) -;
delete(text) +;
notice(text) +;
reminder(text) +;
