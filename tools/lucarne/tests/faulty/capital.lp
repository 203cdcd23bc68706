a :- TR1.
