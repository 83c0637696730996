impl S { struct T; }
