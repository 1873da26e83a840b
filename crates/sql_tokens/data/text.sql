SELECT A, "b" FROM T -- all of it
WHERE A >= 10;
