login(text);
ban(text);
lift(text);
approve(text,text);
enter(text,text) -;
logout(text) +;
